//! The words after a command.

use std::path::PathBuf;

use crate::failure::Failure;

pub fn asks_for_help(words: &[String]) -> bool {
    words.iter().any(|word| word == "--help" || word == "-h")
}

/// Takes an option and the word after it out of the words.
pub fn take_option(words: &mut Vec<String>, option: &str) -> Result<Option<String>, Failure> {
    let Some(place) = words.iter().position(|word| word == option) else {
        return Ok(None);
    };
    if place + 1 == words.len() {
        return Err(Failure::Usage(format!("nothing follows '{option}'")));
    }
    let value = words.remove(place + 1);
    words.remove(place);
    if words.contains(&option.to_string()) {
        return Err(Failure::Usage(format!("'{option}' stands twice")));
    }
    Ok(Some(value))
}

/// The one word that a command needs, which stands for `what`.
pub fn only_word(words: &[String], command: &str, what: &str) -> Result<String, Failure> {
    let word = one_word_at_most(words, command, what)?;
    word.ok_or_else(|| Failure::Usage(format!("'{command}' needs a {what}")))
}

/// The folder that a command works on, by default the current one.
pub fn folder(words: &[String], command: &str) -> Result<PathBuf, Failure> {
    let word = one_word_at_most(words, command, "FOLDER")?;
    Ok(word.map(PathBuf::from).unwrap_or_default())
}

fn one_word_at_most(
    words: &[String],
    command: &str,
    what: &str,
) -> Result<Option<String>, Failure> {
    no_option(words, command)?;
    match words {
        [] => Ok(None),
        [word] => Ok(Some(word.clone())),
        [_, more, ..] => {
            let message = format!("'{more}' is one word too many after '{command} {what}'");
            Err(Failure::Usage(message))
        }
    }
}

/// `-` alone is no option.
pub fn no_option(words: &[String], command: &str) -> Result<(), Failure> {
    let is_option = |word: &&String| word.starts_with('-') && *word != "-";
    match words.iter().find(is_option) {
        None => Ok(()),
        Some(option) => {
            let message = format!("'{option}' is no option of '{command}'");
            Err(Failure::Usage(message))
        }
    }
}

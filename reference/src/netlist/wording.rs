//! Parts of messages.

use crate::component::Kind;

/// Of a longer word only the beginning is repeated.
const LONGEST: usize = 40;

/// A word of the text, with what cannot be seen or would move the screen's cursor written out.
pub fn quoted(word: &str) -> String {
    let shown: String = word.chars().take(LONGEST).collect();
    let cut = if shown.len() < word.len() { ".." } else { "" };
    let seen = |letter: char| match letter {
        '\'' | '"' | '\\' => letter.to_string(),
        _ => letter.escape_debug().to_string(),
    };
    format!("'{}{cut}'", shown.chars().map(seen).collect::<String>())
}

/// `1 input`, `2 inputs`, `no input`.
pub fn counted(count: usize, what: &str) -> String {
    match count {
        0 => format!("no {what}"),
        1 => format!("1 {what}"),
        _ => format!("{count} {what}s"),
    }
}

/// `1 input and 2 outputs`
pub fn port_counts(kind: Kind) -> String {
    let inputs = counted(kind.input_count(), "input");
    let outputs = counted(kind.output_count(), "output");
    format!("{inputs} and {outputs}")
}

/// `queue 'messages'`
pub fn called(kind: Kind, name: &str) -> String {
    format!("{} {}", kind.name(), quoted(name))
}

/// Blanks up to a width, however large: a format's own width ends at 65,535.
pub fn padded(text: &str, width: usize) -> String {
    text.to_string() + &" ".repeat(width.saturating_sub(text.len()))
}

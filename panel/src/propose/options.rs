//! The command line of panel propose.

use std::path::PathBuf;

use crate::arguments::{folder, take_option};
use crate::failure::Failure;
use crate::text_source::TextSource;

pub struct Options {
    pub folder: PathBuf,
    pub wanted: Wanted,
}

/// What goes to proof.bin.
pub enum Wanted {
    /// That of the sums that are found, from 1.
    Sum(usize),
    /// The proposal in a text.
    From(TextSource),
}

pub fn read(words: &[String]) -> Result<Options, Failure> {
    let mut words = words.to_vec();
    let sum = take_option(&mut words, "--sum")?;
    let from = take_option(&mut words, "--from")?;
    let wanted = match (sum, from) {
        (None, None) => Wanted::Sum(1),
        (Some(number), None) => Wanted::Sum(sum_number(&number)?),
        (None, Some(text)) => Wanted::From(TextSource::new(&text)),
        (Some(_), Some(_)) => {
            let message = "'--sum' and '--from' do not go together";
            return Err(Failure::Usage(message.to_string()));
        }
    };
    let folder = folder(&words, "propose")?;
    Ok(Options { folder, wanted })
}

fn sum_number(word: &str) -> Result<usize, Failure> {
    let number = word.parse().ok().filter(|number| *number > 0);
    number.ok_or_else(|| Failure::Usage(format!("'{word}' after '--sum' is no number from 1 on")))
}

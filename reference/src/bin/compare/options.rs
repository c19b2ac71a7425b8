//! The options of the comparison.

use std::time::Duration;

pub struct Options {
    pub seed: u64,
    /// How many cases, unless the time decides.
    pub cases: u64,
    pub time: Option<Duration>,
    /// The one case to show.
    pub only: Option<u64>,
}

pub const USAGE: &str = "usage: compare [--seed N] [--cases N] [--seconds N] [--case N]";

impl Options {
    /// `None` if the words are not such options.
    pub fn read(mut words: impl Iterator<Item = String>) -> Option<Options> {
        let mut options = Options {
            seed: 1,
            cases: 300_000,
            time: None,
            only: None,
        };
        while let Some(word) = words.next() {
            let value: u64 = words.next()?.parse().ok()?;
            match word.as_str() {
                "--seed" => options.seed = value,
                "--cases" => options.cases = value,
                "--seconds" => options.time = Some(Duration::from_secs(value)),
                "--case" => options.only = Some(value),
                _ => return None,
            }
        }
        Some(options)
    }
}

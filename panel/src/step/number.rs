//! Numbers in words of a line.

use std::str::FromStr;

use reference::netlist::{digits, quoted};

pub fn number<T: FromStr>(word: &str) -> Result<T, String> {
    digits(word).ok_or_else(|| format!("{} is no number", quoted(word)))
}

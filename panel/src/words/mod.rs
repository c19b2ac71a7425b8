//! What the library refuses, in words: with the names, and the refusal's number and place.

pub mod choice;
pub mod equations;
pub mod fabric;
pub mod proposal;

use crate::calls::Refused;

/// `(6 at 5)`, or `(8)` for a refusal without a place.
pub fn number_and_place(refused: Refused) -> String {
    match refused.number {
        6 | 7 | 10 | 12 | 13 | 22 => format!("({} at {})", refused.number, refused.place),
        number => format!("({number})"),
    }
}

/// Before a part of a sum.
pub fn sign(negative: bool, first: bool) -> &'static str {
    match (negative, first) {
        (false, true) => "",
        (true, true) => "-",
        (false, false) => " + ",
        (true, false) => " - ",
    }
}

/// `0, 1 and 8`
pub fn listed(words: &[String]) -> String {
    match words.split_last() {
        Some((last, rest)) if !rest.is_empty() => format!("{} and {last}", rest.join(", ")),
        _ => words.concat(),
    }
}

//! All that a call hands back beside the memory it writes.

use reference::refusal::number_and_place;
use reference::Refusal;

use crate::difference::{same, Difference};

/// Of the numbers that a call does not have each is 0.
#[derive(Clone, Copy, Default)]
pub struct Answer {
    pub number: u32,
    pub place: u64,
    pub colours: u64,
    pub channels: u64,
    pub constant: i64,
    pub ceiling: u64,
}

impl Answer {
    /// The answer of the second program.
    pub fn of<T>(answer: &Result<T, Refusal>) -> Answer {
        let (number, place) = number_and_place(answer);
        Answer {
            number,
            place,
            ..Answer::default()
        }
    }

    /// Compares what the library's sister calls hand back with the second program's answer.
    pub fn same_but_number(&self, second: &Answer) -> Result<(), Difference> {
        same("place", self.place, second.place)?;
        same("colours", self.colours, second.colours)?;
        same("channels", self.channels, second.channels)?;
        same("constant", self.constant, second.constant)?;
        same("ceiling", self.ceiling, second.ceiling)
    }
}

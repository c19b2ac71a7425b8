//! How the blocks of accepted calls were judged.

use std::fmt;

use crate::judged_block::JudgedBlock;

/// No refusal inside a block has a higher number.
const HIGHEST: usize = 14;

#[derive(Default)]
pub struct BlockCounts {
    by_number: [u64; HIGHEST + 1],
    accepted_after_refused: u64,
    pub compared_with_check: u64,
}

impl BlockCounts {
    /// The blocks of one call, in file order.
    pub fn add(&mut self, blocks: &[JudgedBlock]) {
        let mut after_refused = false;
        for number in blocks.iter().map(JudgedBlock::number) {
            self.by_number[number as usize] += 1;
            self.accepted_after_refused += u64::from(after_refused && number == 0);
            after_refused = number != 0;
        }
    }

    fn counts(&self) -> [(&'static str, u64); 6] {
        [
            ("accepted", self.by_number[0]),
            ("refused by 12", self.by_number[12]),
            ("refused by 13", self.by_number[13]),
            ("refused by 14", self.by_number[14]),
            (
                "accepted directly after a refused one",
                self.accepted_after_refused,
            ),
            ("compared with check alone", self.compared_with_check),
        ]
    }

    /// What fewer than `least` blocks came to, and how many.
    pub fn too_few(&self, least: u64) -> impl Iterator<Item = (&'static str, u64)> {
        let counts = self.counts().into_iter();
        counts.filter(move |&(_, count)| count < least)
    }
}

impl fmt::Display for BlockCounts {
    fn fmt(&self, out: &mut fmt::Formatter) -> fmt::Result {
        let counts = self.counts().map(|(what, count)| format!("{count} {what}"));
        write!(out, "blocks: {}", counts.join(", "))
    }
}

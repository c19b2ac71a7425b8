//! Where the flows lay that proposals of check, of ceiling and of blocks left.

use std::fmt;

use reference::left::Left;
use reference::packed::read_file;

use crate::answer::Answer;
use crate::case::Call;
use crate::trial::{Trial, FABRIC, GIVEN};

/// Of proposals of one call.
#[derive(Default)]
struct ByPlace {
    /// Accepted, and none was left.
    nothing: u64,
    /// Accepted: those that were left were outside the sets.
    outside: u64,
    /// Refused by 13: all that were left were inside.
    inside: u64,
    /// Refused by 13, the lowest that was left being outside.
    lowest_outside: u64,
    /// Refused by 13, the lowest being inside and another outside.
    lowest_inside: u64,
}

impl ByPlace {
    fn add(&mut self, number: i64, left: Left) {
        let count = match (number, left) {
            (0, Left::Nothing) => &mut self.nothing,
            (0, Left::Outside) => &mut self.outside,
            (13, Left::Inside) => &mut self.inside,
            (13, Left::LowestOutside) => &mut self.lowest_outside,
            (13, Left::LowestInside) => &mut self.lowest_inside,
            _ => return,
        };
        *count += 1;
    }

    fn counts(&self) -> [(&'static str, u64); 5] {
        [
            ("accepted with no flow left", self.nothing),
            ("accepted with flows left outside the sets", self.outside),
            ("refused with all of them inside", self.inside),
            ("refused with the lowest outside", self.lowest_outside),
            (
                "refused with the lowest inside and another outside",
                self.lowest_inside,
            ),
        ]
    }
}

#[derive(Default)]
pub struct LeftCounts {
    checks: ByPlace,
    ceilings: ByPlace,
    blocks: ByPlace,
}

impl LeftCounts {
    fn groups(&self) -> [(&'static str, &ByPlace); 3] {
        [
            ("checks", &self.checks),
            ("ceilings", &self.ceilings),
            ("blocks", &self.blocks),
        ]
    }

    /// What fewer than `least` proposals came to, and how many.
    pub fn too_few(&self, least: u64) -> impl Iterator<Item = (String, u64)> + '_ {
        let groups = self.groups().into_iter();
        let counts = groups.flat_map(|(call, group)| {
            let counts = group.counts().into_iter();
            counts.map(move |(what, count)| (format!("{call} {what}"), count))
        });
        counts.filter(move |&(_, count)| count < least)
    }
}

impl fmt::Display for LeftCounts {
    fn fmt(&self, out: &mut fmt::Formatter) -> fmt::Result {
        let lines = self.groups().map(|(call, group)| {
            let counts = group
                .counts()
                .map(|(what, count)| format!("{count} {what}"));
            format!("{call} by flows: {}", counts.join(", "))
        });
        write!(out, "{}", lines.join("\n"))
    }
}

impl Trial {
    /// Counts a proposal, or the blocks of a file.
    pub fn add_left(&mut self, call: Call, answer: &Answer) {
        let group = match (call, answer.number) {
            (Call::Check, 0 | 13) => &mut self.left.checks,
            (Call::Ceiling { .. }, 0 | 13) => &mut self.left.ceilings,
            (Call::CheckMany, 0) => return self.add_left_of_blocks(),
            _ => return,
        };
        let fabric = read_file(self.parts[FABRIC].bytes()).expect("an accepted file");
        let left = Left::of(&fabric, self.parts[GIVEN].bytes());
        group.add(i64::from(answer.number), left);
    }

    fn add_left_of_blocks(&mut self) {
        let fabric = read_file(self.parts[FABRIC].bytes()).expect("an accepted file");
        for block in self.judged_blocks() {
            let left = Left::of(&fabric, &block.terms);
            self.left.blocks.add(block.number(), left);
        }
    }
}

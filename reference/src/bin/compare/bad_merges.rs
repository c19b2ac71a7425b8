//! States that were refused because of a merge.

use std::fmt;

use reference::packed::read_file;
use reference::state::COMPONENT_STATE;
use reference::Kind;

use crate::answer::Answer;
use crate::trial::{Trial, FABRIC};

#[derive(Default)]
pub struct BadMerges {
    by_byte_0: u64,
    by_another_byte: u64,
}

impl BadMerges {
    fn counts(&self) -> [(&'static str, u64); 2] {
        [
            ("by byte 0", self.by_byte_0),
            ("by another byte", self.by_another_byte),
        ]
    }

    /// What fewer than `least` states were refused by, and how many.
    pub fn too_few(&self, least: u64) -> impl Iterator<Item = (&'static str, u64)> {
        let counts = self.counts().into_iter();
        counts.filter(move |&(_, count)| count < least)
    }
}

impl fmt::Display for BadMerges {
    fn fmt(&self, out: &mut fmt::Formatter) -> fmt::Result {
        let counts = self.counts().map(|(what, count)| format!("{count} {what}"));
        write!(
            out,
            "states refused because of a merge: {}",
            counts.join(", ")
        )
    }
}

impl Trial {
    /// The place of an answer 22 is a component.
    pub fn add_bad_state(&mut self, answer: &Answer, state: &[u8]) {
        let place = answer.place as usize;
        let fabric = read_file(self.parts[FABRIC].bytes()).expect("an accepted file");
        if fabric.components[place].kind != Kind::Merge {
            return;
        }
        if state[COMPONENT_STATE * place] > 2 {
            self.bad_merges.by_byte_0 += 1;
        } else {
            self.bad_merges.by_another_byte += 1;
        }
    }
}

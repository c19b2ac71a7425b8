//! What pack answered and wrote, as one digest, and what accepted calls of it had in them.

use std::fmt;

use reference::digest::Digest;
use reference::open_table::ROW;
use reference::packed::{file_length, CHECK_BYTE, HEADER, RECORD};

use crate::answer::Answer;

#[derive(Default)]
pub struct Packs {
    calls: u64,
    digest: Digest,
    check_place_not_0: u64,
    last_byte_not_0: u64,
}

impl Packs {
    /// One call: its table, and the memory for the file before and after it.
    pub fn add(&mut self, answer: &Answer, table: &[u8], before: &[u8], after: &[u8]) {
        self.calls += 1;
        self.digest.add(&answer.number.to_le_bytes());
        self.digest.add(&answer.place.to_le_bytes());
        self.digest.add(&(after.len() as u64).to_le_bytes());
        self.digest.add(after);
        if answer.number != 0 {
            return;
        }
        let mut records = after[HEADER..file_length(table.len() / ROW)].chunks(RECORD);
        self.check_place_not_0 += u64::from(before[CHECK_BYTE] != 0);
        self.last_byte_not_0 += u64::from(records.any(|record| record[RECORD - 1] != 0));
    }

    fn counts(&self) -> [(&'static str, u64); 2] {
        [
            (
                "with another byte than 0 in the check byte's place before",
                self.check_place_not_0,
            ),
            (
                "with a record whose last byte is not 0",
                self.last_byte_not_0,
            ),
        ]
    }

    /// What fewer than `least` accepted calls had, and how many.
    pub fn too_few(&self, least: u64) -> impl Iterator<Item = (&'static str, u64)> {
        let counts = self.counts().into_iter();
        counts.filter(move |&(_, count)| count < least)
    }
}

impl fmt::Display for Packs {
    fn fmt(&self, out: &mut fmt::Formatter) -> fmt::Result {
        let Packs { calls, digest, .. } = self;
        let counts = self.counts().map(|(what, count)| format!("{count} {what}"));
        write!(
            out,
            "pack: {calls} calls, digest of all answers and bytes {digest}; accepted: {}",
            counts.join(", ")
        )
    }
}

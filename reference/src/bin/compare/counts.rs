//! How often each call came to each number.

use std::fmt;

use crate::case::Call;

/// Each call with the numbers it can come to, in the order of its tests.
const CALLS: [(&str, &[u32]); 9] = [
    ("unpack", &[0, 1, 2, 3, 4, 5, 6, 7, 8, 23]),
    ("pack", &[0, 4, 3, 6, 7, 8, 23]),
    ("start", &[0, 1, 2, 3, 4, 5, 6, 7, 8, 21]),
    ("step", &[0, 1, 2, 3, 4, 5, 6, 7, 8, 21, 22, 9, 10, 23]),
    ("run", &[0, 1, 2, 3, 4, 5, 6, 7, 8, 21, 22, 9, 10]),
    ("check", &[0, 1, 2, 3, 4, 5, 6, 7, 8, 11, 12, 13, 14, 23]),
    (
        "ceiling",
        &[0, 1, 2, 3, 4, 5, 6, 7, 8, 11, 12, 13, 14, 31, 32],
    ),
    ("check_many", &[0, 1, 2, 3, 4, 5, 6, 7, 8, 33, 23]),
    ("reach", &[0, 1, 2, 3, 4, 5, 6, 7, 8, 23]),
];

fn column(call: Call) -> usize {
    match call {
        Call::Unpack => 0,
        Call::Pack { .. } => 1,
        Call::Start => 2,
        Call::Step => 3,
        Call::Run => 4,
        Call::Check => 5,
        Call::Ceiling { .. } => 6,
        Call::CheckMany => 7,
        Call::Reach => 8,
    }
}

const HIGHEST: usize = 33;

type Reached = [u64; HIGHEST + 1];

pub struct Counts {
    reached: [Reached; CALLS.len()],
}

impl Counts {
    pub fn new() -> Counts {
        Counts {
            reached: [[0; HIGHEST + 1]; CALLS.len()],
        }
    }

    pub fn add(&mut self, call: Call, number: u32) {
        self.reached[column(call)][number as usize] += 1;
    }

    pub fn total(&self) -> u64 {
        self.reached.iter().flatten().sum()
    }

    /// The calls and numbers reached fewer than `least` times, and how often.
    pub fn reached_too_seldom(&self, least: u64) -> Vec<(&'static str, u32, u64)> {
        let wanted = self.columns().flat_map(|(call, numbers, reached)| {
            let with_count = numbers
                .iter()
                .map(|&number| (number, reached[number as usize]));
            with_count.map(move |(number, count)| (call, number, count))
        });
        wanted.filter(|&(_, _, count)| count < least).collect()
    }

    fn columns(&self) -> impl Iterator<Item = (&'static str, &'static [u32], &Reached)> {
        let compared = CALLS.iter().zip(&self.reached);
        compared.map(|((call, numbers), reached)| (*call, *numbers, reached))
    }
}

impl fmt::Display for Counts {
    fn fmt(&self, out: &mut fmt::Formatter) -> fmt::Result {
        write!(out, "number")?;
        for (call, ..) in self.columns() {
            write!(out, "{call:>11}")?;
        }
        for number in 0..=HIGHEST as u32 {
            let has = |numbers: &[u32]| numbers.contains(&number);
            if !self.columns().any(|(_, numbers, _)| has(numbers)) {
                continue;
            }
            write!(out, "\n{number:>6}")?;
            for (_, numbers, reached) in self.columns() {
                if has(numbers) {
                    write!(out, "{:>11}", reached[number as usize])?;
                } else {
                    write!(out, "{:>11}", "-")?;
                }
            }
        }
        Ok(())
    }
}

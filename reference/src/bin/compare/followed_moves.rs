//! What the steps of a list move, each in the colour set of its channel.

use std::fmt;

use reference::signals::Channel;
use reference::Fabric;

use crate::difference::{same, Difference};

/// How many moves lay in the sets, and how many of them on channels whose set is not full.
#[derive(Default)]
pub struct MoveCounts {
    pub moves: u64,
    pub where_not_full: u64,
}

impl MoveCounts {
    pub fn add(&mut self, other: &MoveCounts) {
        self.moves += other.moves;
        self.where_not_full += other.where_not_full;
    }
}

impl fmt::Display for MoveCounts {
    fn fmt(&self, out: &mut fmt::Formatter) -> fmt::Result {
        write!(
            out,
            "{} inside the sets, {} of them on channels whose set is not full",
            self.moves, self.where_not_full
        )
    }
}

/// The sets of a list's fabric, and what was moved in them.
pub struct FollowedMoves {
    /// As the library lists them.
    sets: Vec<u8>,
    /// Every colour below C.
    full: u8,
    pub first_steps: MoveCounts,
    pub inside_runs: MoveCounts,
}

impl FollowedMoves {
    pub fn new(fabric: &Fabric, sets: Vec<u8>) -> FollowedMoves {
        FollowedMoves {
            sets,
            full: !(0xFF_u32 >> fabric.colours) as u8,
            first_steps: MoveCounts::default(),
            inside_runs: MoveCounts::default(),
        }
    }

    pub fn some_not_full(&self) -> bool {
        self.sets.iter().any(|&set| set != self.full)
    }

    /// A step of a call, the first or another.
    pub fn step(&mut self, channels: &[Channel], first: bool) -> Result<(), Difference> {
        let counts = match first {
            true => &mut self.first_steps,
            false => &mut self.inside_runs,
        };
        for (x, (channel, &set)) in channels.iter().zip(&self.sets).enumerate() {
            let Some(colour) = channel.transfer() else {
                continue;
            };
            if 0x80 >> colour & set == 0 {
                let moved = format!("channel {x} moves colour {colour}, set {set:08b}");
                return same("a move and its set", moved, "inside".to_string());
            }
            counts.moves += 1;
            counts.where_not_full += u64::from(set != self.full);
        }
        Ok(())
    }
}

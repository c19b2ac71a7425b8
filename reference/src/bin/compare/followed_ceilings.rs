//! Accepted ceilings, each followed through the list of calls after it.

use std::fmt;

use reference::state::{count_of, ComponentState};

use crate::difference::{same, Difference};

/// How many ceilings were followed through lists that have calls, through how many calls, and to
/// how many of them the count of the colour rose.
#[derive(Default)]
pub struct CeilingCounts {
    pub ceilings: u64,
    calls: u64,
    reached: u64,
}

impl CeilingCounts {
    /// A ceiling that no call of its list came after is not counted.
    pub fn add(&mut self, followed: &FollowedCeiling) {
        self.ceilings += u64::from(followed.calls > 0);
        self.calls += followed.calls;
        self.reached += u64::from(followed.reached);
    }
}

impl fmt::Display for CeilingCounts {
    fn fmt(&self, out: &mut fmt::Formatter) -> fmt::Result {
        write!(
            out,
            "{} followed through {} calls, {} reached from below",
            self.ceilings, self.calls, self.reached
        )
    }
}

pub struct FollowedCeiling {
    queue: usize,
    colour: usize,
    ceiling: u64,
    /// Whether the capacity of the queue is more.
    pub below_capacity: bool,
    /// How many calls of the list came after it.
    calls: u64,
    /// Whether the count was less, and whether it then rose to the ceiling.
    was_less: bool,
    reached: bool,
}

impl FollowedCeiling {
    pub fn new(queue: usize, colour: usize, ceiling: u64, capacity: u8) -> FollowedCeiling {
        FollowedCeiling {
            queue,
            colour,
            ceiling,
            below_capacity: ceiling < u64::from(capacity),
            calls: 0,
            was_less: false,
            reached: false,
        }
    }

    /// The queue holds no more of the colour in the state after a call.
    pub fn after(&mut self, listed: bool, states: &[ComponentState]) -> Result<(), Difference> {
        let count = count_of(&states[self.queue], self.colour) as u64;
        let above = count.saturating_sub(self.ceiling);
        same("count above the ceiling", above, 0)?;
        self.calls += u64::from(listed);
        self.reached |= self.was_less && count == self.ceiling;
        self.was_less |= count < self.ceiling;
        Ok(())
    }
}

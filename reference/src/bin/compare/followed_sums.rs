//! Accepted sums, each followed through the list of calls after its check.

use std::fmt;

use reference::check::Sum;
use reference::state::ComponentState;

use crate::difference::{same, Difference};

/// How many accepted sums were followed through lists that have calls, and through how many calls.
#[derive(Default)]
pub struct SumCounts {
    pub sums: u64,
    calls: u64,
}

impl SumCounts {
    /// A sum that no call of its list came after is not counted.
    pub fn add(&mut self, followed: &FollowedSum) {
        self.sums += u64::from(followed.calls > 0);
        self.calls += followed.calls;
    }
}

impl fmt::Display for SumCounts {
    fn fmt(&self, out: &mut fmt::Formatter) -> fmt::Result {
        write!(out, "{} followed through {} calls", self.sums, self.calls)
    }
}

pub struct FollowedSum {
    sum: Sum,
    /// Whether flows are left, all of them outside the colour sets.
    pub by_sets: bool,
    /// How many calls of the list came after its check.
    calls: u64,
}

impl FollowedSum {
    pub fn new(sum: Sum, by_sets: bool) -> FollowedSum {
        FollowedSum {
            sum,
            by_sets,
            calls: 0,
        }
    }

    /// The sum has its constant in the state after a call.
    pub fn after(&mut self, listed: bool, states: &[ComponentState]) -> Result<(), Difference> {
        let sum = &self.sum;
        same("sum and constant", sum.value(states), sum.constant)?;
        self.calls += u64::from(listed);
        Ok(())
    }
}

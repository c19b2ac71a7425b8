//! Where the flows lie that a proposal leaves.

use crate::check::added_up;
use crate::fabric::Fabric;
use crate::reach::ColourSets;

#[derive(Clone, Copy, PartialEq, Eq, Debug)]
pub enum Left {
    /// No flow is left, or the proposal is refused by 11 or 12.
    Nothing,
    /// All that are left are outside the colour sets.
    Outside,
    /// All that are left are inside.
    Inside,
    /// Some are inside, and the lowest of all is outside.
    LowestOutside,
    /// Some are outside, and the lowest of all is inside.
    LowestInside,
}

impl Left {
    pub fn of(fabric: &Fabric, proposal: &[u8]) -> Left {
        let Ok(totals) = added_up(fabric, proposal) else {
            return Left::Nothing;
        };
        let flows = 0..totals.flows.len();
        let left: Vec<usize> = flows.filter(|&flow| totals.flows[flow] != 0).collect();
        let Some(&lowest) = left.first() else {
            return Left::Nothing;
        };
        let sets = ColourSets::of(fabric);
        let inside = left.iter().filter(|&&flow| sets.has(flow)).count();
        match (inside, sets.has(lowest)) {
            (0, _) => Left::Outside,
            (all, _) if all == left.len() => Left::Inside,
            (_, false) => Left::LowestOutside,
            (_, true) => Left::LowestInside,
        }
    }
}

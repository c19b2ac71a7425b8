//! The list of calls of a case, and what is followed through it.

use reference::state::COMPONENT_STATE;
use reference::Fabric;

use crate::case::Call;
use crate::difference::Difference;
use crate::followed_ceilings::FollowedCeiling;
use crate::followed_moves::FollowedMoves;
use crate::followed_signals::FollowedSignals;
use crate::followed_sums::FollowedSum;

/// A start that is accepted, then the list. Checks and ceilings stand outside the list.
#[derive(Default)]
pub struct List {
    pub started: bool,
    pub sums: Vec<FollowedSum>,
    pub block_sums: Vec<FollowedSum>,
    pub ceilings: Vec<FollowedCeiling>,
    pub signals: FollowedSignals,
    /// There from the first step that is followed.
    pub walked: Option<Walked>,
}

/// The fabric of a list that has steps, and what they move.
pub struct Walked {
    pub fabric: Fabric,
    pub moves: FollowedMoves,
}

impl List {
    /// From the accepted start on each sum and each ceiling holds in the state, whatever the call
    /// was and whether or not it was refused.
    pub fn after(&mut self, call: Call, number: u32, state: &[u8]) -> Result<(), Difference> {
        let listed = self.started && matches!(call, Call::Start | Call::Step | Call::Run);
        self.started |= call == Call::Start && number == 0;
        if !self.started {
            return Ok(());
        }
        let states = state.as_chunks::<COMPONENT_STATE>().0;
        let mut sums = self.sums.iter_mut().chain(&mut self.block_sums);
        sums.try_for_each(|sum| sum.after(listed, states))?;
        let mut ceilings = self.ceilings.iter_mut();
        ceilings.try_for_each(|ceiling| ceiling.after(listed, states))
    }
}

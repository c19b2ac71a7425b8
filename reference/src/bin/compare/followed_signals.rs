//! The signals of the steps of a list, each followed into the next step.

use std::fmt;

use reference::merge::held_over_choice;
use reference::persistence::persists;
use reference::signals::Channel;
use reference::state::ComponentState;
use reference::{Fabric, Kind};

use crate::difference::{same, Difference};

/// How many offers that were not taken and takes without an offer were there in the next step, and
/// how many merges then picked what they held though the choice named the other offered input.
#[derive(Default)]
pub struct SignalCounts {
    pub offers: u64,
    pub takes: u64,
    pub held_picks: u64,
}

impl SignalCounts {
    pub fn add(&mut self, other: &SignalCounts) {
        self.offers += other.offers;
        self.takes += other.takes;
        self.held_picks += other.held_picks;
    }
}

impl fmt::Display for SignalCounts {
    fn fmt(&self, out: &mut fmt::Formatter) -> fmt::Result {
        write!(
            out,
            "{} offers not taken, {} takes without an offer, {} held picks over the choice",
            self.offers, self.takes, self.held_picks
        )
    }
}

#[derive(Default)]
pub struct FollowedSignals {
    /// Those of the last step since the start.
    before: Option<Vec<Channel>>,
    pub from_call_to_call: SignalCounts,
    pub inside_runs: SignalCounts,
}

impl FollowedSignals {
    /// Nothing is followed over a start.
    pub fn start(&mut self) {
        self.before = None;
    }

    /// A step of a call, the first or another, from what is held before it. What waited in the step
    /// before is there in this one, and what a merge holds is offered.
    pub fn step(
        &mut self,
        fabric: &Fabric,
        held: &[ComponentState],
        choices: &[u8],
        now: Vec<Channel>,
        first: bool,
    ) -> Result<(), Difference> {
        let counts = match first {
            true => &mut self.from_call_to_call,
            false => &mut self.inside_runs,
        };
        let not_offered = held_not_offered(fabric, held, &now);
        same("held inputs that are not offered", not_offered, 0)?;
        if let Some(before) = &self.before {
            follow_channels(counts, before, &now)?;
            counts.held_picks += held_picks(fabric, held, choices, &now);
        }
        self.before = Some(now);
        Ok(())
    }
}

fn follow_channels(
    counts: &mut SignalCounts,
    before: &[Channel],
    now: &[Channel],
) -> Result<(), Difference> {
    for (channel, (before, now)) in before.iter().zip(now).enumerate() {
        if !persists(*before, *now) {
            let now = format!("channel {channel} now: {now:?}");
            let before = format!("channel {channel} before: {before:?}");
            return same("what waited in the step before", now, before);
        }
        counts.offers += u64::from(before.offer_not_taken().is_some());
        counts.takes += u64::from(before.take_without_offer());
    }
    Ok(())
}

/// How many merges hold an input that is not offered.
fn held_not_offered(fabric: &Fabric, held: &[ComponentState], channels: &[Channel]) -> usize {
    let given = fabric.components.iter().zip(held);
    let merges = given.filter(|(component, _)| component.kind == Kind::Merge);
    let inputs = merges.filter_map(|(merge, held)| {
        let port = held[0].checked_sub(1)?;
        Some(merge.ports[usize::from(port)])
    });
    let offered = |input: &u8| channels[usize::from(*input)].offer.is_some();
    inputs.filter(|input| !offered(input)).count()
}

/// How many merges pick what they hold though the choice names the other offered input.
fn held_picks(
    fabric: &Fabric,
    held: &[ComponentState],
    choices: &[u8],
    channels: &[Channel],
) -> u64 {
    let given = held.iter().zip(choices);
    let given = fabric.components.iter().zip(given);
    let merges = given.filter(|(component, _)| component.kind == Kind::Merge);
    let picks =
        merges.filter(|(merge, (held, &choice))| held_over_choice(merge, held, choice, channels));
    picks.count() as u64
}

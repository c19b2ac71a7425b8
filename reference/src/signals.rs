//! The signals of all channels in one step, by rounds of the rules.

use crate::fabric::Fabric;
use crate::rules::apply_rules;
use crate::state::ComponentState;

/// Channel x has offer(x), none or a colour, and take(x), yes or no.
#[derive(Clone, Copy, Default, PartialEq, Eq, Debug)]
pub struct Channel {
    /// irdy with data.
    pub offer: Option<u8>,
    /// trdy.
    pub take: bool,
}

impl Channel {
    /// A transfer happens where offer is a colour and take is yes.
    pub fn transfer(self) -> Option<u8> {
        self.offer.filter(|_| self.take)
    }

    /// The colour that is offered and not taken.
    pub fn offer_not_taken(self) -> Option<u8> {
        self.offer.filter(|_| !self.take)
    }

    /// Whether it takes and nothing is offered.
    pub fn take_without_offer(self) -> bool {
        self.take && self.offer.is_none()
    }
}

/// Begins with no offers and no takes, and applies every rule, round after round, until a round
/// changes nothing: then all rules hold. A signal keeps its value from the round after all that it
/// depends on keep theirs, so without a circle 2M + 1 rounds are enough.
pub fn signals(fabric: &Fabric, states: &[ComponentState], choices: &[u8]) -> Vec<Channel> {
    let mut channels = vec![Channel::default(); fabric.channels];
    for _round in 0..=2 * fabric.channels {
        let before = channels.clone();
        let given = states.iter().zip(choices);
        for (component, (state, &choice)) in fabric.components.iter().zip(given) {
            apply_rules(component, state, choice, &mut channels);
        }
        if channels == before {
            return channels;
        }
    }
    panic!("the dependences hold a circle");
}

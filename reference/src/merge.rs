//! Merges: which input is picked, and which is held.

use crate::component::Component;
use crate::signals::Channel;
use crate::state::ComponentState;

/// An input of a merge.
#[derive(Clone, Copy, PartialEq, Eq, Debug)]
pub enum Input {
    A,
    B,
}

/// The input that a merge picks in a step with these offers. Its signals and what it holds after the
/// step go by it.
pub fn picked(
    merge: &Component,
    state: &ComponentState,
    choice: u8,
    channels: &[Channel],
) -> Option<Input> {
    let [a_offered, b_offered] = inputs_offered(merge, channels);
    match (state[0], a_offered, b_offered) {
        // While the held input is offered it is picked over the choice.
        (1, true, _) => Some(Input::A),
        (2, _, true) => Some(Input::B),
        // If both inputs are offered the choice picks (0 A, 1 B), else the one offered.
        (_, true, true) => Some(if choice == 0 { Input::A } else { Input::B }),
        (_, true, false) => Some(Input::A),
        (_, false, true) => Some(Input::B),
        (_, false, false) => None,
    }
}

/// Byte 0 of a merge that keeps this pick: 1 A, 2 B, else 0.
pub fn held_byte(pick: Option<Input>) -> u8 {
    match pick {
        Some(Input::A) => 1,
        Some(Input::B) => 2,
        None => 0,
    }
}

/// Whether both inputs are offered, one is held and the choice names the other.
pub fn held_over_choice(
    merge: &Component,
    state: &ComponentState,
    choice: u8,
    channels: &[Channel],
) -> bool {
    let held_and_other = matches!((state[0], choice), (1, 1) | (2, 0));
    held_and_other && inputs_offered(merge, channels) == [true, true]
}

fn inputs_offered(merge: &Component, channels: &[Channel]) -> [bool; 2] {
    let [a, b, _] = merge.ports.map(usize::from);
    [a, b].map(|input| channels[input].offer.is_some())
}

//! The state of a component, 64 bytes: at the start, when it is good, and after a step.

use crate::component::{Component, Kind, MOST_COLOURS};
use crate::fabric::Fabric;
use crate::merge::{held_byte, picked};
use crate::signals::Channel;

pub const COMPONENT_STATE: usize = 64;

/// Byte 0 is a queue's count, its colours follow front first; 1 + the colour that a source holds;
/// 1 while a sink holds; or the pick that a merge holds, 1 A, 2 B. All else is 0.
pub type ComponentState = [u8; COMPONENT_STATE];

/// Start writes fillings and nothing held.
pub fn start_state(component: &Component) -> ComponentState {
    queue_state(&vec![component.fill_colour; usize::from(component.filling)])
}

pub fn lowest_bad_state(fabric: &Fabric, states: &[ComponentState]) -> Option<usize> {
    let mut pairs = fabric.components.iter().zip(states);
    pairs.position(|(component, state)| !is_good(component, fabric.colours, state))
}

/// Counts are at most capacity, colours below C and held colours emitted, a merge holds A or B; all
/// else is 0.
fn is_good(component: &Component, colours: usize, state: &ComponentState) -> bool {
    let [first, rest @ ..] = state;
    let all_0 = |bytes: &[u8]| bytes.iter().all(|&byte| byte == 0);
    match component.kind {
        Kind::Queue if *first > component.capacity => false,
        Kind::Queue => {
            let (queued, unused) = rest.split_at(usize::from(*first));
            queued.iter().all(|&d| usize::from(d) < colours) && all_0(unused)
        }
        Kind::Source => none_or_emitted(component, *first) && all_0(rest),
        Kind::Sink => *first <= 1 && all_0(rest),
        Kind::Merge => *first <= 2 && all_0(rest),
        _ => all_0(state),
    }
}

/// 0, or 1 + a colour that the source emits.
pub fn none_or_emitted(source: &Component, byte: u8) -> bool {
    let held = colour_or_none(byte).map(usize::from);
    held.is_none_or(|colour| colour < MOST_COLOURS && source.mask_names(colour))
}

/// The colour of a byte that is 0 for none and else 1 + a colour.
pub fn colour_or_none(byte: u8) -> Option<u8> {
    byte.checked_sub(1)
}

pub fn byte_of(colour: Option<u8>) -> u8 {
    colour.map_or(0, |colour| colour + 1)
}

/// The colours in a queue, front first.
pub fn content(queue: &ComponentState) -> &[u8] {
    &queue[1..][..usize::from(queue[0])]
}

/// n(q,d): the count of d among the first colours of q, as many as byte 0 of q says.
pub fn count_of(queue: &ComponentState, d: usize) -> usize {
    let queued = content(queue).iter();
    queued.filter(|&&colour| usize::from(colour) == d).count()
}

fn queue_state(colours: &[u8]) -> ComponentState {
    let mut state = [0; COMPONENT_STATE];
    state[0] = colours.len() as u8;
    state[1..][..colours.len()].copy_from_slice(colours);
    state
}

/// What a step with this choice and these signals makes of a component's state.
pub fn advance(
    component: &Component,
    state: &mut ComponentState,
    choice: u8,
    channels: &[Channel],
) {
    let [a, b, c] = component.ports.map(usize::from);
    match component.kind {
        // A source holds its colour if it was offered and not taken.
        Kind::Source => state[0] = byte_of(channels[a].offer_not_taken()),
        // A sink holds if it took and nothing was offered.
        Kind::Sink => state[0] = u8::from(channels[a].take_without_offer()),
        // A queue drops its front if its output moved, then appends what came in.
        Kind::Queue => {
            let mut colours = content(state).to_vec();
            if channels[b].transfer().is_some() {
                colours.remove(0);
            }
            colours.extend(channels[a].transfer());
            *state = queue_state(&colours);
        }
        // A merge whose output was offered and not taken keeps its pick.
        Kind::Merge => {
            let stalled = channels[c].offer_not_taken().is_some();
            let pick = picked(component, state, choice, channels);
            state[0] = held_byte(pick.filter(|_| stalled));
        }
        // The others keep no state.
        Kind::Function | Kind::Fork | Kind::Join | Kind::Switch => {}
    }
}

//! The rules: what each kind offers on its outputs and takes on its inputs.

use crate::component::{Component, Kind};
use crate::merge::{picked, Input};
use crate::signals::Channel;
use crate::state::{colour_or_none, content, ComponentState};

/// Gives each signal of the component the value that its rule has now.
pub fn apply_rules(
    component: &Component,
    state: &ComponentState,
    choice: u8,
    channels: &mut [Channel],
) {
    let [a, b, c] = component.ports.map(usize::from);
    let first = |colour: u8| component.first_map[usize::from(colour)];
    let second = |colour: u8| component.second_map[usize::from(colour)];
    match component.kind {
        // Source: its held colour if it has one, else its choice.
        Kind::Source => {
            channels[a].offer = colour_or_none(state[0]).or(colour_or_none(choice));
        }
        // Sink takes if held or chosen.
        Kind::Sink => channels[a].take = state[0] == 1 || choice == 1,
        // Queue: offers its front colour if not empty; takes if not full at the step's beginning.
        Kind::Queue => {
            channels[b].offer = content(state).first().copied();
            channels[a].take = state[0] < component.capacity;
        }
        // Function: offers the mapped colour; takes as its output does.
        Kind::Function => {
            channels[b].offer = channels[a].offer.map(first);
            channels[a].take = channels[b].take;
        }
        // Fork: B is offered the first map's colour if the input is offered and C takes; C likewise
        // with the second map and B taking. Its input is taken if B and C take.
        Kind::Fork => {
            let input = channels[a].offer;
            channels[b].offer = input.filter(|_| channels[c].take).map(first);
            channels[c].offer = input.filter(|_| channels[b].take).map(second);
            channels[a].take = channels[b].take && channels[c].take;
        }
        // Join: offers the mapped colour of A if A and B are offered. A is taken if the output
        // takes and B is offered; B if the output takes and A is offered.
        Kind::Join => {
            let (data, token) = (channels[a].offer, channels[b].offer);
            channels[c].offer = data.filter(|_| token.is_some()).map(first);
            channels[a].take = channels[c].take && token.is_some();
            channels[b].take = channels[c].take && data.is_some();
        }
        // Switch: offers its colour to the one output the mask names, none to the other. Its input
        // is taken if it is offered and that output takes.
        Kind::Switch => {
            let goes_to_b = |colour: u8| component.mask_names(usize::from(colour));
            let input = channels[a].offer;
            channels[b].offer = input.filter(|&colour| goes_to_b(colour));
            channels[c].offer = input.filter(|&colour| !goes_to_b(colour));
            channels[a].take = input.is_some_and(|colour| {
                let output = if goes_to_b(colour) { b } else { c };
                channels[output].take
            });
        }
        // Merge: while the held input is offered it is picked over the choice; else, if both inputs
        // are offered the choice picks (0 A, 1 B), else the one offered. It offers the picked
        // colour. An input is taken if picked, offered and the output takes.
        Kind::Merge => {
            let picked = picked(component, state, choice, channels);
            channels[c].offer = match picked {
                Some(Input::A) => channels[a].offer,
                Some(Input::B) => channels[b].offer,
                None => None,
            };
            channels[a].take = picked == Some(Input::A) && channels[c].take;
            channels[b].take = picked == Some(Input::B) && channels[c].take;
        }
    }
}

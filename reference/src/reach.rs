//! The colours that can reach a channel: the smallest sets that the rules below close.

use crate::component::{Component, Kind, MOST_COLOURS};
use crate::equations::Flow;
use crate::fabric::Fabric;
use crate::packed::read_file;
use crate::refusal::Refusal;

/// Writes a mask byte a channel, colour 0 the highest bit. Refusals 1 to 8 and 23, in this order.
pub fn reach(file: &[u8], sets: &mut [u8]) -> Result<(), Refusal> {
    let fabric = read_file(file)?;
    let masks = sets
        .get_mut(..fabric.channels)
        .ok_or(Refusal::ResultSpace)?;
    let sets = ColourSets::of(&fabric);
    for (mask, channel) in masks.iter_mut().zip(0..) {
        *mask = sets.members(channel).map(|d| 0x80 >> d).sum();
    }
    Ok(())
}

/// The set of each channel.
#[derive(Clone, PartialEq, Eq)]
pub struct ColourSets {
    /// By the number of a flow, whether its colour is in the set of its channel.
    inside: Vec<bool>,
}

impl ColourSets {
    /// From empty sets, by rounds of the rules until a round adds nothing: then the sets are closed,
    /// and all that is in them had to be.
    pub fn of(fabric: &Fabric) -> ColourSets {
        let mut sets = ColourSets {
            inside: vec![false; MOST_COLOURS * fabric.channels],
        };
        loop {
            let before = sets.clone();
            for component in &fabric.components {
                for flow in given(component, &before) {
                    sets.inside[flow.number()] = true;
                }
            }
            if sets == before {
                return sets;
            }
        }
    }

    /// Every colour below C in every set.
    pub fn full(fabric: &Fabric) -> ColourSets {
        let colours = (0..fabric.channels).flat_map(|_| 0..MOST_COLOURS);
        ColourSets {
            inside: colours.map(|d| d < fabric.colours).collect(),
        }
    }

    /// Whether the flow with this number is inside the sets.
    pub fn has(&self, flow: usize) -> bool {
        self.inside[flow]
    }

    /// The colours in the set of a channel, ascending.
    pub fn members(&self, channel: u8) -> impl Iterator<Item = usize> + '_ {
        let flow = move |colour| Flow { channel, colour };
        (0..MOST_COLOURS).filter(move |&d| self.has(flow(d).number()))
    }
}

/// What a component gives to the sets of its outputs, by those of its inputs.
fn given(component: &Component, sets: &ColourSets) -> Vec<Flow> {
    let [a, b, c] = component.ports;
    let flow = |channel, colour| Flow { channel, colour };
    let names = |d: &usize| component.mask_names(*d);
    let mapped = |output, map: &[u8; MOST_COLOURS]| -> Vec<Flow> {
        let colours = sets.members(a).map(|d| usize::from(map[d]));
        colours.map(|e| flow(output, e)).collect()
    };
    match component.kind {
        // a source's mask
        Kind::Source => {
            let emitted = (0..MOST_COLOURS).filter(names);
            emitted.map(|d| flow(a, d)).collect()
        }
        Kind::Sink => Vec::new(),
        // queue input plus the fill colour if the filling is above 0
        Kind::Queue => {
            let filled = (component.filling > 0).then_some(usize::from(component.fill_colour));
            let colours = sets.members(a).chain(filled);
            colours.map(|d| flow(b, d)).collect()
        }
        // function and fork maps
        Kind::Function => mapped(b, &component.first_map),
        Kind::Fork => {
            let to_b = mapped(b, &component.first_map);
            let to_c = mapped(c, &component.second_map);
            [to_b, to_c].concat()
        }
        // join maps of A if B's set has a member
        Kind::Join if sets.members(b).next().is_some() => mapped(c, &component.first_map),
        Kind::Join => Vec::new(),
        // switch masks
        Kind::Switch => {
            let output = |d: &usize| if names(d) { b } else { c };
            sets.members(a).map(|d| flow(output(&d), d)).collect()
        }
        // the union at a merge
        Kind::Merge => {
            let colours = sets.members(a).chain(sets.members(b));
            colours.map(|d| flow(c, d)).collect()
        }
    }
}

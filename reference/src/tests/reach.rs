//! The colours that can reach a channel, kind by kind, worked out by hand.

use super::{function, sets};
use crate::component::{Component, Kind};
use crate::fabric::Fabric;
use crate::samples::{credit_loop, emits, queue, sink};

fn fabric(colours: usize, channels: usize, components: Vec<Component>) -> Fabric {
    Fabric {
        colours,
        channels,
        components,
    }
}

/// A source, the component between and sinks: the sets of the outputs.
fn behind(colours: usize, mask: u8, between: Component) -> Vec<u8> {
    let outputs = between.outputs().to_vec();
    let mut components = vec![emits(mask, 0), between];
    components.extend(outputs.iter().map(|&channel| sink(channel)));
    sets(&fabric(colours, 1 + outputs.len(), components))[1..].to_vec()
}

#[test]
fn every_colour_that_a_source_emits() {
    for mask in [0x80, 0x40, 0x01, 0xA5, 0xFF] {
        let alone = fabric(8, 1, vec![emits(mask, 0), sink(0)]);
        assert_eq!(sets(&alone), [mask]);
    }
}

#[test]
fn bits_from_c_on_are_0() {
    for (colours, mask) in [(1, 0x80), (2, 0xC0), (7, 0xFE)] {
        assert_eq!(behind(colours, mask, queue(0, 1, 1, 0)), [mask]);
    }
}

#[test]
fn a_queue_passes_its_input_on() {
    assert_eq!(behind(2, 0x80, queue(0, 1, 1, 0)), [0x80]);
    assert_eq!(behind(8, 0x5A, queue(0, 1, 63, 0)), [0x5A]);
}

/// The capacity says nothing of it.
#[test]
fn the_fill_colour_counts_if_the_filling_is_above_0() {
    let filled = |filling, fill_colour| Component {
        fill_colour,
        ..queue(0, 1, 2, filling)
    };
    assert_eq!(behind(2, 0x40, filled(0, 0)), [0x40]);
    assert_eq!(behind(2, 0x40, filled(1, 0)), [0xC0]);
    assert_eq!(behind(2, 0x40, filled(2, 0)), [0xC0]);
    assert_eq!(behind(2, 0x40, filled(1, 1)), [0x40]);
    assert_eq!(behind(8, 0x40, filled(2, 7)), [0x41]);
}

#[test]
fn a_queue_on_itself_has_its_fill_colour_alone() {
    let alone = |filling| sets(&fabric(1, 1, vec![queue(0, 0, 1, filling)]));
    assert_eq!(alone(0), [0]);
    assert_eq!(alone(1), [0x80]);
}

/// 0 to 2, 1 to 2, 2 to 0, 3 to 3.
const MAP: [u8; 8] = [2, 2, 0, 3, 0, 0, 0, 0];

/// 0 to 1, 1 to 0, 2 to 1, 3 to 2.
const OTHER_MAP: [u8; 8] = [1, 0, 1, 2, 0, 0, 0, 0];

#[test]
fn a_function_maps_each_colour() {
    let mapping = Component {
        first_map: MAP,
        ..function(0, 1)
    };
    for (mask, mapped) in [(0x80, 0x20), (0x40, 0x20), (0xC0, 0x20), (0x30, 0x90)] {
        assert_eq!(behind(4, mask, mapping), [mapped], "{mask:02x}");
    }
}

#[test]
fn a_fork_has_a_map_for_each_output() {
    let fork = Component {
        first_map: MAP,
        second_map: OTHER_MAP,
        ..Component::new(Kind::Fork, [0, 1, 2])
    };
    assert_eq!(behind(4, 0x80, fork), [0x20, 0x40]);
    assert_eq!(behind(4, 0x40, fork), [0x20, 0x80]);
    assert_eq!(behind(4, 0xF0, fork), [0xB0, 0xE0]);
}

#[test]
fn a_switch_sends_each_colour_one_way() {
    let switch = |mask| Component {
        mask,
        ..Component::new(Kind::Switch, [0, 1, 2])
    };
    assert_eq!(behind(4, 0xE0, switch(0xA0)), [0xA0, 0x40]);
    assert_eq!(behind(4, 0x80, switch(0xA0)), [0x80, 0]);
    assert_eq!(behind(4, 0x50, switch(0xA0)), [0, 0x50]);
    assert_eq!(behind(4, 0xF0, switch(0)), [0, 0xF0]);
    assert_eq!(behind(4, 0xF0, switch(0xF0)), [0xF0, 0]);
}

#[test]
fn a_merge_has_the_union() {
    for (a, b) in [(0x80, 0x40), (0x80, 0x80), (0xA0, 0xC0)] {
        let merge = Component::new(Kind::Merge, [0, 1, 2]);
        let components = vec![emits(a, 0), emits(b, 1), merge, sink(2)];
        assert_eq!(sets(&fabric(3, 3, components)), [a, b, a | b]);
    }
}

/// A source, and a queue on itself, with this filling, through a fork as the token.
fn join_waits_for(filling: u8) -> Fabric {
    let join = Component {
        first_map: MAP,
        ..Component::new(Kind::Join, [0, 3, 4])
    };
    let fork = Component::new(Kind::Fork, [1, 2, 3]);
    let tokens = queue(2, 1, 2, filling);
    fabric(4, 5, vec![emits(0xC0, 0), tokens, fork, join, sink(4)])
}

/// Only whether B's set has a member counts, not which.
#[test]
fn a_join_maps_a_if_b_has_a_member() {
    assert_eq!(sets(&join_waits_for(0)), [0xC0, 0, 0, 0, 0]);
    assert_eq!(sets(&join_waits_for(1)), [0xC0, 0x80, 0x80, 0x80, 0x20]);
    let mut other_colour = join_waits_for(1);
    other_colour.components[1].fill_colour = 3;
    other_colour.components[2].first_map[3] = 3;
    other_colour.components[2].second_map[3] = 3;
    assert_eq!(sets(&other_colour), [0xC0, 0x10, 0x10, 0x10, 0x20]);
}

/// Its data comes from an empty queue on itself, its token from a source.
#[test]
fn a_join_has_nothing_if_a_has_no_member() {
    let mut turned = join_waits_for(0);
    turned.components[3].ports = [3, 0, 4];
    assert_eq!(sets(&turned), [0xC0, 0, 0, 0, 0]);
}

#[test]
fn of_the_credit_loop() {
    assert_eq!(sets(&credit_loop()), [0x80; 6]);
    let mut no_credits = credit_loop();
    no_credits.components[5].filling = 0;
    assert_eq!(sets(&no_credits), [0x80, 0, 0, 0, 0, 0]);
}

/// Nothing ever comes along where no source and no filling is.
#[test]
fn of_a_fabric_without_packets() {
    let components = vec![queue(0, 1, 1, 0), queue(1, 0, 1, 0)];
    assert_eq!(sets(&fabric(8, 2, components)), [0, 0]);
}

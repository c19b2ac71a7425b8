//! Which equations there are, and what stands in them.

use super::function;
use crate::component::{Component, Kind};
use crate::equations::{equation, Flow};
use crate::samples::{emits, queue, source};

/// Channel, colour and factor of each flow, in ascending order, or `None` if there is no such
/// equation.
fn flows(component: &Component, colours: usize, index: usize) -> Option<Vec<(u8, usize, i64)>> {
    let listed = equation(component, colours, index)?.into_iter();
    let mut listed: Vec<_> = listed
        .map(|(flow, factor)| (flow.channel, flow.colour, factor))
        .collect();
    listed.sort_unstable();
    Some(listed)
}

fn indexes(component: &Component, colours: usize) -> Vec<usize> {
    (0..16)
        .filter(|&index| equation(component, colours, index).is_some())
        .collect()
}

#[test]
fn a_flow_s_number_is_8_times_its_channel_plus_its_colour() {
    let number = |channel, colour| Flow { channel, colour }.number();
    assert_eq!(number(3, 0), 24);
    assert_eq!(number(254, 7), 2039);
}

#[test]
fn the_indexes_of_each_kind() {
    let of = |kind, colours| indexes(&Component::new(kind, [0, 1, 2]), colours);
    assert_eq!(of(Kind::Sink, 8), []);
    for kind in [Kind::Queue, Kind::Function, Kind::Merge] {
        assert_eq!(of(kind, 3), [0, 1, 2]);
        assert_eq!(of(kind, 8), (0..8).collect::<Vec<_>>());
    }
    for kind in [Kind::Fork, Kind::Switch] {
        assert_eq!(of(kind, 2), [0, 1, 8, 9]);
        assert_eq!(of(kind, 8), (0..16).collect::<Vec<_>>());
    }
    assert_eq!(of(Kind::Join, 1), [0, 8]);
    assert_eq!(of(Kind::Join, 8), (0..9).collect::<Vec<_>>());
    let emits_1_and_3 = emits(0x50, 0);
    assert_eq!(indexes(&emits_1_and_3, 4), [0, 2]);
    assert_eq!(indexes(&emits_1_and_3, 8), [0, 2, 4, 5, 6, 7]);
}

#[test]
fn of_source_and_queue() {
    assert_eq!(flows(&source(6), 2, 1), Some(vec![(6, 1, 1)]));
    let plain = queue(3, 4, 1, 0);
    assert_eq!(flows(&plain, 2, 1), Some(vec![(3, 1, -1), (4, 1, 1)]));
    let on_itself = queue(3, 3, 1, 0);
    assert_eq!(flows(&on_itself, 2, 1), Some(vec![(3, 1, -1), (3, 1, 1)]));
}

/// Colours 0 and 2 go to 1, and 1 to 0; in the second map 0 and 1 go to 2, and 2 to 1.
fn with_maps(kind: Kind, ports: [u8; 3]) -> Component {
    Component {
        first_map: [1, 0, 1, 0, 0, 0, 0, 0],
        second_map: [2, 2, 1, 0, 0, 0, 0, 0],
        ..Component::new(kind, ports)
    }
}

#[test]
fn of_function() {
    let function = with_maps(Kind::Function, function(3, 4).ports);
    assert_eq!(flows(&function, 3, 0), Some(vec![(3, 1, -1), (4, 0, 1)]));
    let mapped_to_1 = vec![(3, 0, -1), (3, 2, -1), (4, 1, 1)];
    assert_eq!(flows(&function, 3, 1), Some(mapped_to_1));
    assert_eq!(flows(&function, 3, 2), Some(vec![(4, 2, 1)]));
}

#[test]
fn of_fork() {
    let fork = with_maps(Kind::Fork, [3, 4, 5]);
    let first_to_1 = vec![(3, 0, -1), (3, 2, -1), (4, 1, 1)];
    assert_eq!(flows(&fork, 3, 1), Some(first_to_1));
    assert_eq!(flows(&fork, 3, 8), Some(vec![(5, 0, 1)]));
    assert_eq!(flows(&fork, 3, 8 + 1), Some(vec![(3, 2, -1), (5, 1, 1)]));
    let second_to_2 = vec![(3, 0, -1), (3, 1, -1), (5, 2, 1)];
    assert_eq!(flows(&fork, 3, 8 + 2), Some(second_to_2));
}

#[test]
fn of_join() {
    let join = with_maps(Kind::Join, [3, 4, 5]);
    let data_to_1 = vec![(3, 0, -1), (3, 2, -1), (5, 1, 1)];
    assert_eq!(flows(&join, 3, 1), Some(data_to_1));
    let all = vec![(3, 0, 1), (3, 1, 1), (4, 0, -1), (4, 1, -1)];
    assert_eq!(flows(&join, 2, 8), Some(all));
}

#[test]
fn of_switch_and_merge() {
    let switch = Component {
        mask: 0x40,
        ..Component::new(Kind::Switch, [3, 4, 5])
    };
    assert_eq!(flows(&switch, 2, 0), Some(vec![(4, 0, 1)]));
    assert_eq!(flows(&switch, 2, 1), Some(vec![(3, 1, -1), (4, 1, 1)]));
    assert_eq!(flows(&switch, 2, 8), Some(vec![(3, 0, -1), (5, 0, 1)]));
    assert_eq!(flows(&switch, 2, 9), Some(vec![(5, 1, 1)]));
    let merge = Component::new(Kind::Merge, [3, 4, 5]);
    let all = vec![(3, 1, -1), (4, 1, -1), (5, 1, 1)];
    assert_eq!(flows(&merge, 2, 1), Some(all));
}

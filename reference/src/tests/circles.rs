//! The circle test.

use super::{fabric_answer, function};
use crate::component::{Component, Kind};
use crate::fabric::Fabric;
use crate::samples::{fork_into_join, function_row, queue, sink, source, switch_row};

const CIRCLE: (u32, u64) = (8, 0);
const ACCEPTED: (u32, u64) = (0, 0);

fn of_components(channels: usize, components: &[Component]) -> (u32, u64) {
    fabric_answer(&Fabric {
        colours: 1,
        channels,
        components: components.to_vec(),
    })
}

#[test]
fn fork_into_one_join() {
    assert_eq!(fabric_answer(&fork_into_join()), CIRCLE);
}

#[test]
fn a_queue_on_one_branch_opens_the_circle() {
    let components = [
        source(0),
        Component::new(Kind::Fork, [0, 1, 2]),
        queue(1, 4, 1, 0),
        Component::new(Kind::Join, [4, 2, 3]),
        sink(3),
    ];
    assert_eq!(of_components(5, &components), ACCEPTED);
}

#[test]
fn a_queue_on_itself_is_legal() {
    assert_eq!(of_components(1, &[queue(0, 0, 1, 1)]), ACCEPTED);
}

#[test]
fn any_other_component_on_itself_is_a_circle() {
    assert_eq!(of_components(1, &[function(0, 0)]), CIRCLE);
    for kind in [Kind::Fork, Kind::Switch] {
        for ports in [[0, 0, 1], [0, 1, 0]] {
            assert_eq!(
                of_components(2, &[Component::new(kind, ports), sink(1)]),
                CIRCLE
            );
        }
    }
    for kind in [Kind::Join, Kind::Merge] {
        for ports in [[0, 1, 0], [1, 0, 0]] {
            assert_eq!(
                of_components(2, &[Component::new(kind, ports), source(1)]),
                CIRCLE
            );
        }
    }
}

/// The fork offers to one branch as the other takes, and such a branch takes as it is offered.
#[test]
fn fork_into_two_takers_that_look_at_the_offer() {
    let fork = Component::new(Kind::Fork, [0, 1, 2]);
    let first_switch = Component::new(Kind::Switch, [1, 3, 4]);
    let second_switch = Component::new(Kind::Switch, [2, 5, 6]);
    let sinks = [sink(3), sink(4), sink(5), sink(6)];
    let components = [&[source(0), fork, first_switch, second_switch], &sinks[..]].concat();
    assert_eq!(of_components(7, &components), CIRCLE);

    let first_merge = Component::new(Kind::Merge, [1, 3, 5]);
    let second_merge = Component::new(Kind::Merge, [4, 2, 6]);
    let ends = [source(3), source(4), sink(5), sink(6)];
    let components = [&[source(0), fork, first_merge, second_merge], &ends[..]].concat();
    assert_eq!(of_components(7, &components), CIRCLE);
}

#[test]
fn fork_into_one_taker_that_looks_at_the_offer() {
    let components = [
        source(0),
        Component::new(Kind::Fork, [0, 1, 2]),
        Component::new(Kind::Switch, [1, 3, 4]),
        sink(2),
        sink(3),
        sink(4),
    ];
    assert_eq!(of_components(5, &components), ACCEPTED);
}

#[test]
fn switch_into_one_merge() {
    let components = [
        source(0),
        Component::new(Kind::Switch, [0, 1, 2]),
        Component::new(Kind::Merge, [1, 2, 3]),
        sink(3),
    ];
    assert_eq!(of_components(4, &components), ACCEPTED);
    assert_eq!(fabric_answer(&switch_row(63)), ACCEPTED);
}

#[test]
fn functions_in_a_row_and_in_a_ring() {
    let mut fabric = function_row(128);
    assert_eq!(fabric_answer(&fabric), ACCEPTED);
    fabric.components[0] = function(126, 0);
    fabric.components[127] = queue(127, 127, 1, 0);
    fabric.channels = 128;
    assert_eq!(fabric_answer(&fabric), CIRCLE);
}

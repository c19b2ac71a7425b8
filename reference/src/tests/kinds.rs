//! What each kind does in a step.

use super::{first_bytes, function, merged, moves, source_then_sink, started};
use crate::component::{Component, Kind};
use crate::fabric::Fabric;
use crate::samples::{emits, queue, sink};

const TURNED: [u8; 8] = [1, 2, 0, 0, 0, 0, 0, 0];

fn emits_three(a: u8) -> Component {
    emits(0xE0, a)
}

#[test]
fn a_function_maps() {
    let mut fabric = source_then_sink(Component {
        first_map: TURNED,
        ..function(0, 1)
    });
    fabric.colours = 3;
    fabric.components[0] = emits_three(0);
    for (choice, moved) in [(1, 2), (2, 3), (3, 1)] {
        let mut state = started(&fabric);
        assert_eq!(moves(&fabric, &mut state, &[choice, 0, 1]), [choice, moved]);
    }
}

#[test]
fn a_fork_maps_each_branch_by_its_own() {
    let fork = Component {
        first_map: TURNED,
        second_map: [2, 0, 1, 0, 0, 0, 0, 0],
        ..Component::new(Kind::Fork, [0, 1, 2])
    };
    let fabric = Fabric {
        colours: 3,
        channels: 3,
        components: vec![emits_three(0), fork, sink(1), sink(2)],
    };
    let mut state = started(&fabric);
    assert_eq!(moves(&fabric, &mut state, &[1, 0, 1, 1]), [1, 2, 3]);
    assert_eq!(moves(&fabric, &mut state, &[2, 0, 1, 1]), [2, 3, 1]);
    assert_eq!(moves(&fabric, &mut state, &[3, 0, 1, 1]), [3, 1, 2]);
}

#[test]
fn a_join_maps_the_data_and_waits_for_the_token() {
    let join = Component {
        first_map: TURNED,
        ..Component::new(Kind::Join, [0, 1, 2])
    };
    let fabric = Fabric {
        colours: 3,
        channels: 3,
        components: vec![emits_three(0), emits_three(1), join, sink(2)],
    };
    let mut state = started(&fabric);
    assert_eq!(moves(&fabric, &mut state, &[2, 0, 0, 1]), [0; 3]);
    assert_eq!(first_bytes(&state), [2, 0, 0, 1]);
    assert_eq!(moves(&fabric, &mut state, &[0, 1, 0, 0]), [2, 1, 3]);
    assert_eq!(moves(&fabric, &mut state, &[0, 3, 0, 1]), [0; 3]);
    assert_eq!(first_bytes(&state), [0, 3, 0, 1]);
}

#[test]
fn a_switch_goes_by_its_mask() {
    let switch = Component {
        mask: 0x40,
        ..Component::new(Kind::Switch, [0, 1, 2])
    };
    let fabric = Fabric {
        colours: 3,
        channels: 3,
        components: vec![emits_three(0), switch, sink(1), sink(2)],
    };
    let mut state = started(&fabric);
    assert_eq!(moves(&fabric, &mut state, &[2, 0, 1, 1]), [2, 2, 0]);
    assert_eq!(first_bytes(&state), [0, 0, 0, 1]);
    assert_eq!(moves(&fabric, &mut state, &[1, 0, 1, 0]), [1, 0, 1]);
    assert_eq!(first_bytes(&state), [0, 0, 1, 0]);
    assert_eq!(moves(&fabric, &mut state, &[1, 0, 0, 0]), [0, 0, 0]);
    assert_eq!(first_bytes(&state), [1, 0, 1, 0]);
    assert_eq!(moves(&fabric, &mut state, &[0, 0, 0, 1]), [1, 0, 1]);
}

#[test]
fn a_merge_picks_by_choice_only_between_two() {
    let fabric = merged();
    let mut state = started(&fabric);
    assert_eq!(moves(&fabric, &mut state, &[1, 1, 1, 1]), [0, 1, 1]);
    assert_eq!(first_bytes(&state), [1, 0, 0, 0]);
    assert_eq!(moves(&fabric, &mut state, &[0, 1, 0, 1]), [1, 0, 1]);
    assert_eq!(moves(&fabric, &mut state, &[0, 0, 0, 1]), [0, 1, 1]);
    assert_eq!(moves(&fabric, &mut state, &[1, 0, 1, 1]), [1, 0, 1]);
    assert_eq!(moves(&fabric, &mut state, &[0, 0, 1, 1]), [0, 0, 0]);
    assert_eq!(first_bytes(&state), [0, 0, 0, 1]);
}

#[test]
fn a_merge_waits_for_its_output() {
    for choice in [0, 1] {
        let mut state = started(&merged());
        assert_eq!(moves(&merged(), &mut state, &[1, 1, choice, 0]), [0; 3]);
        assert_eq!(first_bytes(&state), [1, 1, 1 + choice, 0]);
    }
}

#[test]
fn a_queue_gives_its_front_first() {
    let mut fabric = source_then_sink(queue(0, 1, 3, 0));
    fabric.colours = 3;
    fabric.components[0] = emits_three(0);
    let mut state = started(&fabric);
    for choice in [2, 3, 1] {
        moves(&fabric, &mut state, &[choice, 0, 0]);
    }
    assert_eq!(state[64..70], [3, 1, 2, 0, 0, 0]);
    assert_eq!(moves(&fabric, &mut state, &[3, 0, 1]), [0, 2]);
    assert_eq!(state[64..70], [2, 2, 0, 0, 0, 0]);
    assert_eq!(moves(&fabric, &mut state, &[0, 0, 1]), [3, 3]);
    assert_eq!(state[64..70], [2, 0, 2, 0, 0, 0]);
}

/// It moves its front to its back if it is neither empty nor full.
#[test]
fn a_queue_on_itself() {
    let fabric = Fabric {
        colours: 2,
        channels: 1,
        components: vec![queue(0, 0, 3, 3)],
    };
    let mut state = started(&fabric);
    assert_eq!(moves(&fabric, &mut state, &[0]), [0]);
    state[..4].copy_from_slice(&[2, 0, 1, 0]);
    assert_eq!(moves(&fabric, &mut state, &[0]), [1]);
    assert_eq!(state[..4], [2, 1, 0, 0]);
    state[..4].copy_from_slice(&[0; 4]);
    assert_eq!(moves(&fabric, &mut state, &[0]), [0]);
}

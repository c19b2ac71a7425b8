//! The traps that the document names.

use super::{check_answer, first_bytes, moves, source_then_sink, started, term};
use crate::component::{Component, Kind};
use crate::fabric::Fabric;
use crate::samples::{emits, queue, sink, source};

#[test]
fn a_full_queue_does_not_take_though_it_gives() {
    let fabric = source_then_sink(queue(0, 1, 1, 1));
    let mut state = started(&fabric);
    assert_eq!(moves(&fabric, &mut state, &[1, 0, 1]), [0, 1]);
    assert_eq!(first_bytes(&state), [1, 0, 0]);
}

/// Two data and two token colours come in, one data colour goes out.
#[test]
fn token_colours_do_not_count_into_the_join_s_output() {
    let fabric = Fabric {
        colours: 2,
        channels: 3,
        components: vec![
            emits(0xC0, 0),
            emits(0xC0, 1),
            Component {
                first_map: [1, 1, 0, 0, 0, 0, 0, 0],
                ..Component::new(Kind::Join, [0, 1, 2])
            },
            sink(2),
        ],
    };
    let flow = |channel: u64, colour: u64| (13, 8 * channel + colour);
    assert_eq!(check_answer(&fabric, &[term(2, 1, 1)]), flow(0, 0));
    let data_taken_away = [term(2, 1, 1), term(2, 8, 1)];
    assert_eq!(check_answer(&fabric, &data_taken_away), flow(1, 0));
}

#[test]
fn a_fork_moves_both_branches_or_none() {
    let fabric = Fabric {
        colours: 1,
        channels: 3,
        components: vec![
            source(0),
            Component::new(Kind::Fork, [0, 1, 2]),
            sink(1),
            sink(2),
        ],
    };
    let mut state = started(&fabric);
    assert_eq!(moves(&fabric, &mut state, &[1, 0, 0, 1]), [0; 3]);
    assert_eq!(first_bytes(&state), [1, 0, 0, 1]);
    assert_eq!(moves(&fabric, &mut state, &[0, 0, 0, 0]), [0; 3]);
    assert_eq!(moves(&fabric, &mut state, &[0, 0, 1, 0]), [1; 3]);
    assert_eq!(moves(&fabric, &mut state, &[1, 0, 1, 0]), [0; 3]);
    assert_eq!(first_bytes(&state), [1, 0, 1, 0]);
}

#[test]
fn a_source_keeps_its_held_colour() {
    let mut fabric = source_then_sink(queue(0, 1, 1, 1));
    fabric.colours = 3;
    fabric.components[0].mask = 0xE0;
    let mut state = started(&fabric);
    for choice in [3, 0, 1, 2] {
        assert_eq!(moves(&fabric, &mut state, &[choice, 0, 0]), [0, 0]);
        assert_eq!(first_bytes(&state), [3, 1, 0]);
    }
    assert_eq!(moves(&fabric, &mut state, &[0, 0, 1]), [0, 1]);
    assert_eq!(moves(&fabric, &mut state, &[1, 0, 0]), [3, 0]);
    assert_eq!(first_bytes(&state), [0, 1, 0]);
}

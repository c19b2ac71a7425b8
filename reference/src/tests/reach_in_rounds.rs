//! Sets that take many rounds, worked out by hand.

use super::{function, sets};
use crate::component::{Component, Kind};
use crate::fabric::Fabric;
use crate::samples::{emits, queue, queue_row, sink};

/// Each function takes a colour to the next one.
const TO_THE_NEXT: [u8; 8] = [1, 2, 3, 4, 5, 6, 7, 7];

#[test]
fn a_chain_laid_forwards_and_backwards() {
    for length in [3, 4, 128] {
        let forwards = queue_row(length);
        let backwards = forwards.laid_backwards();
        assert_eq!(sets(&forwards), vec![0x80; length - 1]);
        assert_eq!(sets(&backwards), vec![0x80; length - 1]);
        assert_ne!(forwards.to_file(), backwards.to_file());
    }
}

/// Colour 0 comes in; each time round it is the next colour: 0 to 7 behind the merge, 1 to 7 behind
/// the function.
#[test]
fn a_ring_goes_round_until_nothing_is_new() {
    let next = Component {
        first_map: TO_THE_NEXT,
        ..function(3, 1)
    };
    let merge = Component::new(Kind::Merge, [0, 1, 2]);
    let components = vec![next, queue(2, 3, 1, 0), merge, emits(0x80, 0)];
    let fabric = Fabric {
        colours: 8,
        channels: 4,
        components,
    };
    assert_eq!(sets(&fabric), [0x80, 0x7F, 0xFF, 0xFF]);
}

/// Two rings, each with a join whose token comes from the other: both go round only if a packet is in
/// each of them.
#[test]
fn joins_that_wait_for_each_other() {
    let two = |first_filling, second_filling| {
        let join = |a, b, c| Component::new(Kind::Join, [a, b, c]);
        let fork = |a, b, c| Component::new(Kind::Fork, [a, b, c]);
        let components = vec![
            join(1, 9, 0),
            queue(0, 2, 1, first_filling),
            fork(2, 1, 4),
            queue(4, 8, 1, 0),
            join(6, 8, 3),
            queue(3, 7, 1, second_filling),
            fork(7, 6, 5),
            queue(5, 9, 1, 0),
        ];
        let fabric = Fabric {
            colours: 1,
            channels: 10,
            components,
        };
        sets(&fabric)
    };
    assert_eq!(two(0, 0), [0; 10]);
    assert_eq!(two(1, 0), [0, 0x80, 0x80, 0, 0x80, 0, 0, 0, 0x80, 0]);
    assert_eq!(two(1, 1), [0x80; 10]);
}

/// Its token comes through a row of queues; the data is there from the first round on.
#[test]
fn a_join_that_waits_for_many_rounds() {
    let row = queue_row(9);
    let mut components = row.components;
    let end = components.pop().expect("a sink").ports[0];
    let join = Component {
        first_map: [1, 0, 0, 0, 0, 0, 0, 0],
        ..Component::new(Kind::Join, [end + 1, end, end + 2])
    };
    components.extend([emits(0xC0, end + 1), join, sink(end + 2)]);
    let fabric = Fabric {
        colours: 2,
        channels: usize::from(end) + 3,
        components,
    };
    let mut expected = vec![0x80; usize::from(end) + 1];
    expected.extend([0xC0, 0xC0]);
    assert_eq!(sets(&fabric), expected);
    assert_eq!(sets(&fabric.laid_backwards()), expected);
}

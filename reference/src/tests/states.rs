//! Which states are good.

use super::{function, merged, source_then_sink, started};
use crate::fabric::Fabric;
use crate::refusal::number_and_place;
use crate::run;
use crate::samples::{credit_loop, queue, switch_row};

/// The answer of a run of no steps on the started state with one byte changed.
fn with_byte(fabric: &Fabric, place: usize, byte: u8) -> (u32, u64) {
    let mut state = started(fabric);
    state[place] = byte;
    number_and_place(&run(&fabric.to_file(), &mut state, &[]))
}

/// A source of colours 0 and 2, a queue that holds two, a sink.
fn filled() -> Fabric {
    let mut fabric = source_then_sink(queue(0, 1, 3, 2));
    fabric.colours = 3;
    fabric.components[0].mask = 0xA0;
    fabric
}

#[test]
fn a_held_colour_is_emitted() {
    for (byte, answer) in [(0, (0, 0)), (1, (0, 0)), (2, (22, 0)), (3, (0, 0))] {
        assert_eq!(with_byte(&filled(), 0, byte), answer);
    }
    for byte in [4, 8, 9, 10, 255] {
        assert_eq!(with_byte(&filled(), 0, byte), (22, 0));
    }
    assert_eq!(with_byte(&filled(), 63, 1), (22, 0));
}

#[test]
fn a_count_is_at_most_the_capacity_and_colours_follow() {
    for (byte, answer) in [
        (2, (0, 0)),
        (3, (0, 0)),
        (4, (22, 1)),
        (64, (22, 1)),
        (255, (22, 1)),
    ] {
        assert_eq!(with_byte(&filled(), 64, byte), answer);
    }
    assert_eq!(with_byte(&filled(), 65, 2), (0, 0));
    assert_eq!(with_byte(&filled(), 65, 3), (22, 1));
    assert_eq!(with_byte(&filled(), 66, 2), (0, 0));
    assert_eq!(with_byte(&filled(), 67, 2), (22, 1));
    assert_eq!(with_byte(&filled(), 127, 1), (22, 1));
}

#[test]
fn a_sink_holds_1() {
    assert_eq!(with_byte(&filled(), 128, 1), (0, 0));
    assert_eq!(with_byte(&filled(), 128, 2), (22, 2));
    assert_eq!(with_byte(&filled(), 129, 1), (22, 2));
}

#[test]
fn a_merge_holds_1_or_2() {
    for byte in [0, 1, 2] {
        assert_eq!(with_byte(&merged(), 128, byte), (0, 0));
    }
    for byte in [3, 4, 127, 128, 255] {
        assert_eq!(with_byte(&merged(), 128, byte), (22, 2));
    }
    for place in 129..192 {
        for byte in [1, 2, 255] {
            assert_eq!(with_byte(&merged(), place, byte), (22, 2));
        }
    }
}

#[test]
fn a_holding_merge_has_no_other_bytes() {
    for held in [1, 2] {
        let mut state = started(&merged());
        state[128] = held;
        state[191] = 1;
        let answer = run(&merged().to_file(), &mut state, &[]);
        assert_eq!(number_and_place(&answer), (22, 2));
    }
}

#[test]
fn others_hold_nothing() {
    let with_function = source_then_sink(function(0, 1));
    for (fabric, component) in [
        (with_function, 1),
        (credit_loop(), 1),
        (credit_loop(), 3),
        (switch_row(1), 1),
    ] {
        for place in [0, 1, 63] {
            let answer = with_byte(&fabric, 64 * component + place, 1);
            assert_eq!(answer, (22, component as u64));
        }
    }
}

#[test]
fn the_lowest_component_is_the_place() {
    let mut state = started(&filled());
    state[129] = 1;
    state[64] = 4;
    let answer = run(&filled().to_file(), &mut state, &[]);
    assert_eq!(number_and_place(&answer), (22, 1));
}

#[test]
fn all_63_places_of_a_queue() {
    let fabric = source_then_sink(queue(0, 1, 63, 63));
    let mut state = started(&fabric);
    assert_eq!(run(&fabric.to_file(), &mut state, &[0, 0, 1]), Ok(()));
    assert_eq!((state[64], state[127]), (62, 0));
}

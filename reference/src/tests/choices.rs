//! Which choices are allowed, and how many.

use super::{merged, started};
use crate::fabric::Fabric;
use crate::refusal::number_and_place;
use crate::run;
use crate::samples::{credit_loop, emits};

fn answer(fabric: &Fabric, choices: &[u8]) -> (u32, u64) {
    number_and_place(&run(&fabric.to_file(), &mut started(fabric), choices))
}

#[test]
fn merges_and_sinks_choose_0_or_1() {
    assert_eq!(answer(&merged(), &[0, 0, 1, 1]), (0, 0));
    assert_eq!(answer(&merged(), &[0, 0, 2, 2]), (10, 2));
    assert_eq!(answer(&merged(), &[0, 0, 1, 2]), (10, 3));
    assert_eq!(answer(&credit_loop(), &[0, 0, 1, 0, 0, 0]), (10, 2));
}

/// Also while it holds another colour.
#[test]
fn a_source_chooses_what_it_emits() {
    let mut fabric = merged();
    fabric.colours = 8;
    fabric.components[0] = emits(0x11, 0);
    for choice in [0, 4, 8] {
        assert_eq!(answer(&fabric, &[choice, 0, 0, 0]), (0, 0));
    }
    for choice in [1, 3, 5, 7, 9, 128, 255] {
        assert_eq!(answer(&fabric, &[choice, 0, 0, 0]), (10, 0));
        assert_eq!(answer(&fabric, &[4, 0, 0, 0, choice, 0, 0, 0]), (10, 4));
    }
}

#[test]
fn the_place_is_the_offset_in_the_whole_list() {
    let mut choices = [1, 0, 0, 0, 1, 0].repeat(50);
    choices[6 * 41 + 2] = 1;
    choices[6 * 41 + 4] = 2;
    assert_eq!(answer(&credit_loop(), &choices), (10, 6 * 41 + 2));
}

#[test]
fn whole_steps_only() {
    let choices = [0; 13];
    assert_eq!(answer(&credit_loop(), &choices), (9, 0));
    assert_eq!(answer(&credit_loop(), &choices[..12]), (0, 0));
    assert_eq!(answer(&credit_loop(), &[]), (0, 0));
}

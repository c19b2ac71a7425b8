//! Ceiling: what it is refused for, and the order of its tests.

use super::{ceiling_answer, term};
use crate::ceiling;
use crate::fabric::Fabric;
use crate::packed::CHECK_BYTE;
use crate::refusal::number_and_place;
use crate::samples::{credit_loop, credit_terms, fork_into_join, looped_queues};
use crate::terms::write_proposal;

const NOT_A_QUEUE: Result<u64, (u32, u64)> = Err((31, 0));
const WEIGHT_NOT_POSITIVE: Result<u64, (u32, u64)> = Err((32, 0));

fn of_the_credit_loop(queue: u64, colour: u64) -> Result<u64, (u32, u64)> {
    ceiling_answer(&credit_loop(), &credit_terms(), queue, colour)
}

#[test]
fn no_component_no_queue_no_colour() {
    for component in [6, 7, 127, 128, 255, u64::MAX] {
        assert_eq!(of_the_credit_loop(component, 0), NOT_A_QUEUE);
    }
    for other_kind in [0, 1, 3, 4] {
        assert_eq!(of_the_credit_loop(other_kind, 0), NOT_A_QUEUE);
    }
    for colour in [1, 2, 7, 8, u64::MAX] {
        assert_eq!(of_the_credit_loop(2, colour), NOT_A_QUEUE);
    }
}

#[test]
fn numbers_are_never_cut() {
    for more in [7, 8, 16, 32, 63].map(|bit| 1 << bit) {
        assert_eq!(of_the_credit_loop(2 + more, 0), NOT_A_QUEUE);
        assert_eq!(of_the_credit_loop(2, more), NOT_A_QUEUE);
    }
}

/// 8 times q plus d is no way to name a place.
#[test]
fn colour_8_is_not_the_next_queue() {
    let fabric = Fabric {
        colours: 8,
        ..looped_queues(2)
    };
    let terms = [term(1, 0, 1)];
    assert_eq!(ceiling_answer(&fabric, &terms, 1, 0), Ok(0));
    assert_eq!(ceiling_answer(&fabric, &terms, 0, 8), NOT_A_QUEUE);
}

#[test]
fn a_weight_of_0_or_below() {
    let answer = |terms: &[_]| ceiling_answer(&looped_queues(2), terms, 0, 0);
    let other = term(1, 0, 1);
    assert_eq!(answer(&[other]), WEIGHT_NOT_POSITIVE);
    assert_eq!(answer(&[other, term(0, 0, 0)]), WEIGHT_NOT_POSITIVE);
    let adds_up_to_0 = [term(0, 0, 3), term(0, 0, -3), other];
    assert_eq!(answer(&adds_up_to_0), WEIGHT_NOT_POSITIVE);
    assert_eq!(answer(&[other, term(0, 0, -1)]), WEIGHT_NOT_POSITIVE);
}

#[test]
fn from_the_last_test_to_the_first() {
    let mut file = credit_loop().to_file();
    let mut proposal = write_proposal(&credit_terms());
    let mut below_0 = credit_terms();
    below_0.iter_mut().for_each(|term| term.multiplier = -1);
    let below_0 = write_proposal(&below_0);
    let answer = |file: &[u8], proposal: &[u8], queue, colour| {
        number_and_place(&ceiling(file, proposal, queue, colour))
    };
    assert_eq!(answer(&file, &proposal, 2, 0), (0, 0));
    assert_eq!(answer(&file, &below_0, 2, 0), (32, 0));
    assert_eq!(answer(&file, &below_0, 2, 1), (31, 0));
    assert_eq!(answer(&file, &below_0, 3, 0), (31, 0));
    assert_eq!(answer(&file, &[], 3, 1), (14, 0));
    assert_eq!(answer(&file, &[], 2, 0), (14, 0));
    proposal.extend([0x04, 0, 0, 1]);
    assert_eq!(answer(&file, &proposal, 3, 1), (13, 16));
    proposal.extend([0, 0, 0, 0]);
    assert_eq!(answer(&file, &proposal, 3, 1), (12, 6));
    proposal.push(0);
    assert_eq!(answer(&file, &proposal, 3, 1), (11, 0));
    let circle = fork_into_join().to_file();
    assert_eq!(answer(&circle, &proposal, 3, 1), (8, 0));
    file[CHECK_BYTE] ^= 1;
    assert_eq!(answer(&file, &proposal, 3, 1), (5, 0));
    assert_eq!(answer(&[], &proposal, 3, 1), (1, 0));
}

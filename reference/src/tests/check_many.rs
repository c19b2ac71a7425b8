//! Many proposals for one fabric, worked out by hand.

use super::{block, entries, term};
use crate::blocks::write_blocks;
use crate::check_many;
use crate::fabric::Fabric;
use crate::samples::{credit_loop, credit_terms, looped_queues, queue};
use crate::terms::Term;

/// The entries of an accepted call's results, a list a block.
fn results(fabric: &Fabric, blocks: &[Vec<u8>]) -> Vec<Vec<i64>> {
    let length = 8 * (3 + 8 * fabric.components.len());
    let mut results = vec![0xA5; length * blocks.len()];
    let answer = check_many(&fabric.to_file(), &blocks.concat(), &mut results);
    assert_eq!(answer, Ok(()));
    results.chunks(length).map(entries).collect()
}

/// The weights are those other than 0, by 8 times q plus d.
fn accepted(components: usize, constant: i64, weights: &[(usize, i64)]) -> Vec<i64> {
    result(components, [0, 0, constant], weights)
}

fn refused(components: usize, number: i64, place: i64) -> Vec<i64> {
    result(components, [number, place, 0], &[])
}

fn result(components: usize, first: [i64; 3], weights: &[(usize, i64)]) -> Vec<i64> {
    let mut entries = first.to_vec();
    entries.resize(3 + 8 * components, 0);
    for (entry, weight) in weights {
        entries[3 + entry] = *weight;
    }
    entries
}

/// So many times the sum of the credit loop.
fn times(multiplier: i64) -> Vec<Term> {
    let terms = credit_terms().into_iter();
    terms.map(|term| Term { multiplier, ..term }).collect()
}

fn of_the_credit_loop(multiplier: i64) -> Vec<i64> {
    let weights = [(16, multiplier), (40, multiplier)];
    accepted(6, 2 * multiplier, &weights)
}

#[test]
fn refused_blocks_spoil_no_other() {
    let blocks = [
        block([0, 5], &times(1)),
        block([0, 4], &times(1)[..4]),
        block([0, 5], &times(-3)),
        block([0, 1], &[term(0, 0, 1)]),
        block([0, 0], &[]),
        block([0, 5], &times(7)),
    ];
    let expected = [
        of_the_credit_loop(1),
        refused(6, 13, 24),
        of_the_credit_loop(-3),
        refused(6, 12, 0),
        refused(6, 14, 0),
        of_the_credit_loop(7),
    ];
    assert_eq!(results(&credit_loop(), &blocks), expected);
}

/// Together the two halves would be the sum.
#[test]
fn terms_of_two_blocks_do_not_add() {
    let terms = times(1);
    let halves = [block([0, 2], &terms[..2]), block([0, 3], &terms[2..])];
    let expected = [refused(6, 13, 8), refused(6, 13, 8)];
    assert_eq!(results(&credit_loop(), &halves), expected);
}

#[test]
fn a_count_has_its_high_byte_first() {
    let mut terms = vec![term(2, 0, 0); 251];
    terms.extend(times(1));
    let blocks = [block([1, 0], &terms), block([0, 1], &[term(2, 0, 1)])];
    let expected = [of_the_credit_loop(1), refused(6, 13, 16)];
    assert_eq!(results(&credit_loop(), &blocks), expected);
}

#[test]
fn a_file_of_blocks_in_hex() {
    let file = [
        0, 2, 0x04, 0, 0, 1, 0x0A, 0, 0, 1, 0, 0, 0, 1, 0x07, 0, 0, 1,
    ];
    let terms = credit_terms();
    let blocks = [terms[..2].to_vec(), Vec::new(), terms[4..].to_vec()];
    assert_eq!(write_blocks(&blocks), file);
    let long = write_blocks(&[vec![term(2, 0, 0); 0x0102]]);
    assert_eq!(long[..2], [1, 2]);
}

#[test]
fn the_place_of_12_counts_terms_in_the_block() {
    let terms = [term(2, 0, 1), term(5, 0, 1), term(2, 1, 1), term(0, 0, 1)];
    let blocks = [
        block([0, 5], &times(1)),
        block([0, 4], &terms),
        block([0, 2], &terms[2..]),
    ];
    let expected = [of_the_credit_loop(1), refused(6, 12, 2), refused(6, 12, 0)];
    assert_eq!(results(&credit_loop(), &blocks), expected);
}

/// Each has its own multiplier; that of block 32 is 0.
#[test]
fn all_of_64_blocks_are_judged() {
    let blocks: Vec<_> = (0..64).map(|i| block([0, 5], &times(i - 32))).collect();
    let mut expected: Vec<_> = (0..64).map(|i| of_the_credit_loop(i - 32)).collect();
    expected[32] = refused(6, 14, 0);
    assert_eq!(results(&credit_loop(), &blocks), expected);
}

/// A queue on itself, whose flow cancels whatever the weight is.
#[test]
fn entries_outgrow_32_bits() {
    let fabric = Fabric {
        components: vec![queue(0, 0, 63, 63)],
        ..looped_queues(1)
    };
    let weight = -(1_i64 << 32);
    let blocks = [
        block([0x10, 0], &[term(0, 0, -(1 << 20)); 4096]),
        block([0, 1], &[term(0, 0, 1)]),
    ];
    let expected = [
        accepted(1, 63 * weight, &[(0, weight)]),
        accepted(1, 63, &[(0, 1)]),
    ];
    assert_eq!(results(&fabric, &blocks), expected);
}

#[test]
fn the_last_weight_of_the_largest_fabric() {
    let blocks = [
        block([0, 1], &[term(127, 0, 5)]),
        block([0, 1], &[term(0, 0, 6)]),
    ];
    let expected = [
        accepted(128, 0, &[(8 * 127, 5)]),
        accepted(128, 0, &[(0, 6)]),
    ];
    assert_eq!(results(&looped_queues(128), &blocks), expected);
}

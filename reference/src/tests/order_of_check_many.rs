//! Check of many: what it is refused for, the order of its tests, and what it writes.

use super::block;
use crate::check_many;
use crate::packed::CHECK_BYTE;
use crate::refusal::number_and_place;
use crate::samples::{credit_loop, credit_terms, fork_into_join};

/// The length of a block's result on the credit loop.
const RESULT: usize = 8 * (3 + 8 * 6);
const KEPT: u8 = 0xA5;

/// Number and place of a call, which writes nothing where it is refused.
fn answer(file: &[u8], proposals: &[u8], space: usize) -> (u32, u64) {
    let mut results = vec![KEPT; space];
    let answer = check_many(file, proposals, &mut results);
    if answer.is_err() {
        assert_eq!(results, vec![KEPT; space]);
    }
    number_and_place(&answer)
}

fn of_the_credit_loop(proposals: &[u8], space: usize) -> (u32, u64) {
    answer(&credit_loop().to_file(), proposals, space)
}

#[test]
fn from_the_last_test_to_the_first() {
    let mut file = credit_loop().to_file();
    let mut proposals = block([0, 5], &credit_terms()).repeat(2);
    assert_eq!(answer(&file, &proposals, 2 * RESULT), (0, 0));
    assert_eq!(answer(&file, &proposals, 2 * RESULT - 1), (23, 0));
    assert_eq!(answer(&file, &proposals, RESULT), (23, 0));
    assert_eq!(answer(&file, &proposals, 0), (23, 0));
    proposals.push(0);
    assert_eq!(answer(&file, &proposals, 2 * RESULT), (33, 0));
    assert_eq!(answer(&file, &proposals, 0), (33, 0));
    let circle = fork_into_join().to_file();
    assert_eq!(answer(&circle, &proposals, 0), (8, 0));
    file[CHECK_BYTE] ^= 1;
    assert_eq!(answer(&file, &proposals, 0), (5, 0));
    assert_eq!(answer(&[], &proposals, 0), (1, 0));
}

/// Whatever is refused in its blocks, the call is accepted.
#[test]
fn refused_blocks_need_space_too() {
    let refused = block([0, 4], &credit_terms()[..4]).repeat(3);
    assert_eq!(of_the_credit_loop(&refused, 3 * RESULT), (0, 0));
    assert_eq!(of_the_credit_loop(&refused, 3 * RESULT - 1), (23, 0));
}

#[test]
fn a_file_without_blocks() {
    assert_eq!(of_the_credit_loop(&[], 0), (0, 0));
    let mut results = [KEPT; 9];
    let answer = check_many(&credit_loop().to_file(), &[], &mut results);
    assert_eq!((answer, results), (Ok(()), [KEPT; 9]));
}

#[test]
fn up_to_64_blocks() {
    for (blocks, number) in [(63, 0), (64, 0), (65, 33), (66, 33), (128, 33)] {
        let proposals = [0, 0].repeat(blocks);
        let found = of_the_credit_loop(&proposals, blocks * RESULT);
        assert_eq!(found, (number, 0), "{blocks}");
    }
}

#[test]
fn up_to_4096_terms_in_a_block() {
    for (high, low, number) in [
        (0x0F, 0xFF, 0),
        (0x10, 0x00, 0),
        (0x10, 0x01, 33),
        (0x20, 0x00, 33),
        (0xFF, 0xFF, 33),
    ] {
        let count = 256 * usize::from(high) + usize::from(low);
        let mut proposals = vec![0, 0, high, low];
        proposals.extend([0x04, 0, 0, 0].repeat(count));
        let found = of_the_credit_loop(&proposals, 2 * RESULT);
        assert_eq!(found, (number, 0), "{count}");
    }
}

/// One block of one term, one of none and one of two; each other length ends within a block.
#[test]
fn blocks_fill_the_file() {
    let proposals = [0, 1, 4, 0, 0, 1, 0, 0, 0, 2, 4, 0, 0, 1, 4, 0, 0, 1];
    for length in 0..=proposals.len() {
        let number = if [0, 6, 8, 18].contains(&length) {
            0
        } else {
            33
        };
        let found = of_the_credit_loop(&proposals[..length], 3 * RESULT);
        assert_eq!(found, (number, 0), "{length}");
    }
    let one_more = [&proposals[..], &[0]].concat();
    assert_eq!(of_the_credit_loop(&one_more, 4 * RESULT), (33, 0));
}

#[test]
fn bytes_past_the_results_are_kept() {
    let mut results = [KEPT; 2 * RESULT + 9];
    let proposals = [block([0, 5], &credit_terms()), vec![0, 0]].concat();
    let answer = check_many(&credit_loop().to_file(), &proposals, &mut results);
    assert_eq!(answer, Ok(()));
    assert_eq!(results[RESULT..][..8], [14, 0, 0, 0, 0, 0, 0, 0]);
    assert_eq!(results[2 * RESULT - 1], 0);
    assert_eq!(results[2 * RESULT..], [KEPT; 9]);
}

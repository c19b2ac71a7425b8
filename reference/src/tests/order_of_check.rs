//! Check: the order of its tests, and what it writes.

use crate::check;
use crate::packed::CHECK_BYTE;
use crate::refusal::number_and_place;
use crate::samples::{credit_loop, credit_terms, fork_into_join};
use crate::terms::write_proposal;

fn answer(file: &[u8], proposal: &[u8], space: usize) -> (u32, u64) {
    let mut weights = vec![0xA5; space];
    let answer = check(file, proposal, &mut weights);
    if answer.is_err() {
        assert_eq!(weights, vec![0xA5; space]);
    }
    number_and_place(&answer)
}

#[test]
fn from_the_last_test_to_the_first() {
    let mut file = credit_loop().to_file();
    let mut proposal = write_proposal(&credit_terms());
    assert_eq!(answer(&file, &proposal, 64 * 6), (0, 0));
    assert_eq!(answer(&file, &proposal, 64 * 6 - 1), (23, 0));
    assert_eq!(answer(&file, &[], 0), (14, 0));
    proposal.extend([0x04, 0, 0, 1]);
    assert_eq!(answer(&file, &proposal, 0), (13, 16));
    proposal.extend([0, 0, 0, 0]);
    assert_eq!(answer(&file, &proposal, 0), (12, 6));
    proposal.push(0);
    assert_eq!(answer(&file, &proposal, 0), (11, 0));
    file[CHECK_BYTE] ^= 1;
    assert_eq!(answer(&file, &proposal, 0), (5, 0));
    assert_eq!(answer(&fork_into_join().to_file(), &proposal, 0), (8, 0));
}

#[test]
fn up_to_4096_terms() {
    let file = credit_loop().to_file();
    let mut proposal = [0x04, 0, 0, 0].repeat(4091);
    proposal.extend(write_proposal(&credit_terms()));
    assert_eq!(answer(&file, &proposal, 64 * 6), (0, 0));
    for added in 1..=4 {
        proposal.push(4);
        assert_eq!(answer(&file, &proposal, 64 * 6), (11, 0), "{added}");
    }
}

#[test]
fn bytes_past_the_weights_are_kept() {
    let mut weights = [0xA5; 64 * 6 + 9];
    let proposal = write_proposal(&credit_terms());
    assert_eq!(
        check(&credit_loop().to_file(), &proposal, &mut weights),
        Ok(2)
    );
    assert_eq!(weights[64 * 6..], [0xA5; 9]);
}

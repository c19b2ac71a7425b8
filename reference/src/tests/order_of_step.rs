//! Start, step and run: the order of their tests, and what they write.

use super::started;
use crate::refusal::number_and_place;
use crate::samples::{credit_loop, fork_into_join};
use crate::{run, start, step};

const KEPT: u8 = 0xA5;

/// Number and place of a step, which writes nothing where it is refused.
fn step_answer(file: &[u8], state: &[u8], choices: &[u8], space: usize) -> (u32, u64) {
    let (mut written, mut moves) = (state.to_vec(), vec![KEPT; space]);
    let answer = step(file, &mut written, choices, &mut moves);
    if answer.is_err() {
        assert_eq!(written, state);
        assert_eq!(moves, vec![KEPT; space]);
    }
    number_and_place(&answer)
}

fn run_answer(file: &[u8], state: &[u8], choices: &[u8]) -> (u32, u64) {
    let mut written = state.to_vec();
    let answer = run(file, &mut written, choices);
    if answer.is_err() {
        assert_eq!(written, state);
    }
    number_and_place(&answer)
}

#[test]
fn from_the_last_test_to_the_first() {
    let file = credit_loop().to_file();
    let mut state = started(&credit_loop());
    let good = [1, 0, 0, 0, 0, 0];
    let bad = [1, 0, 0, 1, 0, 0];
    assert_eq!(step_answer(&file, &state, &good, 6), (0, 0));
    assert_eq!(step_answer(&file, &state, &good, 5), (23, 0));
    assert_eq!(run_answer(&file, &state, &good), (0, 0));
    assert_eq!(step_answer(&file, &state, &bad, 5), (10, 3));
    assert_eq!(run_answer(&file, &state, &bad), (10, 3));
    assert_eq!(step_answer(&file, &state, &bad[..5], 5), (9, 0));
    assert_eq!(run_answer(&file, &state, &bad[..5]), (9, 0));
    state[64 * 4] = 2;
    assert_eq!(step_answer(&file, &state, &bad[..5], 5), (22, 4));
    assert_eq!(run_answer(&file, &state, &bad[..5]), (22, 4));
    state.pop();
    assert_eq!(step_answer(&file, &state, &bad[..5], 5), (21, 0));
    assert_eq!(run_answer(&file, &state, &bad[..5]), (21, 0));
    let refused = fork_into_join().to_file();
    assert_eq!(step_answer(&refused, &state, &bad, 5), (8, 0));
    assert_eq!(run_answer(&refused, &[], &[]), (8, 0));
    assert_eq!(step_answer(&[], &[], &[], 0), (1, 0));
}

#[test]
fn a_step_takes_the_choices_of_just_one_step() {
    let file = credit_loop().to_file();
    let state = started(&credit_loop());
    for count in [0, 5, 7, 12] {
        assert_eq!(step_answer(&file, &state, &vec![0; count], 6), (9, 0));
    }
}

#[test]
fn start_needs_64_bytes_a_component_and_keeps_the_rest() {
    let file = credit_loop().to_file();
    let mut state = [KEPT; 64 * 6 + 5];
    let short = start(&file, &mut state[..64 * 6 - 1]);
    assert_eq!(number_and_place(&short), (21, 0));
    assert_eq!(state, [KEPT; 64 * 6 + 5]);
    assert_eq!(start(&file, &mut state), Ok(()));
    let mut two_credits = [0; 64 * 6];
    two_credits[64 * 5] = 2;
    assert_eq!(state[..64 * 6], two_credits);
    assert_eq!(state[64 * 6..], [KEPT; 5]);
    let mut refused = [KEPT; 256];
    let circle = start(&fork_into_join().to_file(), &mut refused);
    assert_eq!(number_and_place(&circle), (8, 0));
    assert_eq!(refused, [KEPT; 256]);
}

#[test]
fn bytes_past_state_and_moves_are_kept_and_not_looked_at() {
    let file = credit_loop().to_file();
    let mut state = started(&credit_loop());
    state.extend([KEPT; 7]);
    let mut moves = [KEPT; 8];
    assert_eq!(
        step(&file, &mut state, &[1, 0, 0, 0, 0, 0], &mut moves),
        Ok(())
    );
    assert_eq!(moves, [1, 1, 1, 0, 0, 0, KEPT, KEPT]);
    assert_eq!(run(&file, &mut state, &[1, 0, 0, 0, 0, 0]), Ok(()));
    assert_eq!(state[64 * 6..], [KEPT; 7]);
}

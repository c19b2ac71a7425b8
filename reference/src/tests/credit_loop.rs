//! The starred cases of the credit loop.

use super::{check_answer, first_bytes, moves, started, term};
use crate::refusal::number_and_place;
use crate::samples::{credit_loop, credit_terms};
use crate::terms::write_proposal;
use crate::{check, step};

#[test]
fn terms_in_hex() {
    let hex = [
        0x04000001_u32,
        0x0A000001,
        0x02000001,
        0x03000001,
        0x07000001,
    ];
    let bytes: Vec<u8> = hex.iter().flat_map(|term| term.to_be_bytes()).collect();
    assert_eq!(write_proposal(&credit_terms()), bytes);
}

#[test]
fn weights_and_constant() {
    let mut weights = [0xA5; 64 * 6];
    let proposal = write_proposal(&credit_terms());
    let constant = check(&credit_loop().to_file(), &proposal, &mut weights);
    assert_eq!(constant, Ok(2));
    for (entry, weight) in weights.as_chunks::<8>().0.iter().enumerate() {
        let expected = i64::from(entry == 8 * 2 || entry == 8 * 5);
        assert_eq!(i64::from_le_bytes(*weight), expected, "entry {entry}");
    }
}

#[test]
fn proposals_that_are_refused() {
    let fabric = credit_loop();
    assert_eq!(check_answer(&fabric, &credit_terms()[..4]), (13, 24));
    assert_eq!(check_answer(&fabric, &[]), (14, 0));
    assert_eq!(check_answer(&fabric, &[term(0, 0, 1)]), (12, 0));
}

#[test]
fn the_source_fills_the_queue_and_then_holds() {
    let fabric = credit_loop();
    let mut state = started(&fabric);
    assert_eq!(first_bytes(&state), [0, 0, 0, 0, 0, 2]);
    let choices = [1, 0, 0, 0, 0, 0];
    assert_eq!(moves(&fabric, &mut state, &choices), [1, 1, 1, 0, 0, 0]);
    assert_eq!(first_bytes(&state), [0, 0, 1, 0, 0, 1]);
    assert_eq!(moves(&fabric, &mut state, &choices), [1, 1, 1, 0, 0, 0]);
    assert_eq!(first_bytes(&state), [0, 0, 2, 0, 0, 0]);
    assert_eq!(moves(&fabric, &mut state, &choices), [0; 6]);
    assert_eq!(first_bytes(&state), [1, 0, 2, 0, 0, 0]);
}

#[test]
fn the_sink_holds() {
    let fabric = credit_loop();
    let mut state = started(&fabric);
    assert_eq!(moves(&fabric, &mut state, &[0, 0, 0, 0, 1, 0]), [0; 6]);
    assert_eq!(first_bytes(&state), [0, 0, 0, 0, 1, 2]);
}

#[test]
fn a_choice_and_a_count_too_large() {
    let fabric = credit_loop();
    let mut state = started(&fabric);
    let answer = |state: &mut [u8], choices: &[u8]| {
        number_and_place(&step(&fabric.to_file(), state, choices, &mut [0; 6]))
    };
    assert_eq!(answer(&mut state, &[2, 0, 0, 0, 0, 0]), (10, 0));
    state[64 * 2] = 3;
    assert_eq!(answer(&mut state, &[1, 0, 0, 0, 0, 0]), (22, 2));
}

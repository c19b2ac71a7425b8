//! A run is its steps one by one, and every accepted sum is kept.

use super::{fabric_of, moves, started};
use crate::check::accepted_sum;
use crate::random::Random;
use crate::random_proposal::Equations;
use crate::random_state::{random_choices, random_state};
use crate::run;
use crate::terms::write_proposal;

#[test]
fn a_run_is_its_steps() {
    for number in 0..60 {
        let random = &mut Random::new(4, number);
        let fabric = fabric_of(random);
        let mut state = random_state(random, &fabric);
        let mut stepped = state.clone();
        let choices = random_choices(random, &fabric, 20);
        for step in choices.chunks(fabric.components.len()) {
            moves(&fabric, &mut stepped, step);
        }
        assert_eq!(run(&fabric.to_file(), &mut state, &choices), Ok(()));
        assert!(state == stepped, "fabric {number}");
    }
}

#[test]
fn accepted_sums_are_kept() {
    let mut followed = 0;
    for number in 0..100 {
        let random = &mut Random::new(5, number);
        let fabric = fabric_of(random);
        let proposal = write_proposal(&Equations::of(&fabric).cancelling_terms(random));
        let Ok(sum) = accepted_sum(&fabric.to_file(), &proposal) else {
            continue;
        };
        let mut state = started(&fabric);
        assert_eq!(sum.value(state.as_chunks().0), sum.constant);
        for _ in 0..5 {
            let choices = random_choices(random, &fabric, 10);
            run(&fabric.to_file(), &mut state, &choices).expect("an accepted run");
            assert_eq!(sum.value(state.as_chunks().0), sum.constant);
            followed += 1;
        }
    }
    assert!(followed > 200);
}

//! Combinations of equations in which all flows cancel, or all inside the colour sets.

use super::{check_answer, fabric_of, term};
use crate::fabric::Fabric;
use crate::left::Left;
use crate::null_space::{null_space, terms, NullSpace};
use crate::random::Random;
use crate::random_fabric::{random_fabric, Plan};
use crate::random_proposal::Equations;
use crate::reach::ColourSets;
use crate::samples::{
    credit_loop, credit_loops, credit_terms, fork_into_join, full_queues, function_row,
    looped_queues,
};
use crate::terms::write_proposal;

fn inside(fabric: &Fabric) -> NullSpace {
    null_space(fabric, &ColourSets::of(fabric))
}

#[test]
fn one_of_each_credit_loop() {
    let found = inside(&credit_loop());
    let mut expected = credit_terms();
    expected.sort_by_key(|term| (term.component, term.index));
    let sign = i64::try_from(found.with_queues[0][0].1).expect("a small multiplier");
    expected.iter_mut().for_each(|term| term.multiplier *= sign);
    assert_eq!(found.with_queues.len(), 1);
    assert_eq!(terms(&found.with_queues[0]), Some(expected));
    assert_eq!(counts(&credit_loops(21)), (21, 0, 0, 0));
}

#[test]
fn queues_on_themselves_and_a_row_without_queues() {
    assert_eq!(counts(&full_queues(128)), (128, 0, 0, 0));
    assert_eq!(counts(&looped_queues(128)), (0, 128, 0, 0));
    assert_eq!(counts(&function_row(128)), (0, 0, 0, 0));
}

/// Without its credits nothing comes behind the join: no flow is inside in the equations of the two
/// queues and of the fork, and the join's two have just that of its data.
#[test]
fn flows_outside_the_sets_need_not_cancel() {
    let mut fabric = credit_loop();
    fabric.components[5].filling = 0;
    assert_eq!(counts(&fabric), (0, 2, 3, 0));
    let everywhere = null_space(&fabric, &ColourSets::full(&fabric));
    assert_eq!(everywhere.with_queues.len(), 1);
    assert_eq!(everywhere.never_queued.len(), 0);
}

/// The fork sends as much to B as to C, which is what the join says too.
#[test]
fn a_combination_without_queues() {
    assert_eq!(counts(&fork_into_join()), (0, 0, 1, 0));
    let found = inside(&fork_into_join()).without_queues;
    let sign = i64::try_from(found[0][0].1).expect("a small multiplier");
    let expected = [term(1, 0, sign), term(1, 8, -sign), term(2, 8, -sign)];
    assert_eq!(terms(&found[0]), Some(expected.to_vec()));
}

/// Combinations with queues, for colours that never come to a queue, without queues, and lost ones.
fn counts(fabric: &Fabric) -> (usize, usize, usize, usize) {
    let found = inside(fabric);
    let (with, without) = (found.with_queues.len(), found.without_queues.len());
    (with, found.never_queued.len(), without, found.lost)
}

/// In each all flows cancel, or all inside the sets: check refuses none of them by 13.
#[test]
fn every_flow_inside_the_sets_cancels() {
    let (mut accepted, mut longest, mut left_outside) = (0, 0, 0);
    for number in 0..200 {
        let random = &mut Random::new(6, number);
        let plan = Plan {
            size: random.pick(&[2, 6, 20, 128]),
            colours: random.between(1, 8),
            circles: false,
        };
        let fabric = random_fabric(random, &plan);
        let terms = Equations::of(&fabric).cancelling_terms(random);
        let answer = check_answer(&fabric, &terms);
        assert!(
            [(0, 0), (14, 0)].contains(&answer),
            "fabric {number}: {answer:?}"
        );
        accepted += u32::from(answer == (0, 0));
        longest = longest.max(terms.len());
        left_outside += u32::from(Left::of(&fabric, &write_proposal(&terms)) == Left::Outside);
    }
    assert!(accepted > 120, "{accepted}");
    assert!(left_outside > 50, "{left_outside}");
    assert_eq!(longest, 4096);
}

#[test]
fn every_flow_cancels() {
    let mut accepted = 0;
    for number in 0..100 {
        let random = &mut Random::new(7, number);
        let fabric = fabric_of(random);
        let terms = Equations::everywhere(&fabric).cancelling_terms(random);
        let left = Left::of(&fabric, &write_proposal(&terms));
        assert_eq!(left, Left::Nothing, "fabric {number}");
        accepted += u32::from(check_answer(&fabric, &terms) == (0, 0));
    }
    assert!(accepted > 70, "{accepted}");
}

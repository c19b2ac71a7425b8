//! The documents' ceilings of the credit loop, and others at the bounds.

use reference::samples::{credit_loop, credit_terms, looped_queues, queue};
use reference::terms::{write_proposal, Term, MOST_TERMS, MULTIPLIER_BOUND};
use reference::Fabric;

use crate::case::{Call, Case, Expected, Lent, LentCall};
use crate::credit_loop_cases::{accepted_step, case, SOURCE_CHOOSES};

const NO_QUEUE: Expected = Expected::NumberAndPlace(31, 0);
const NOT_ABOVE_0: Expected = Expected::NumberAndPlace(32, 0);

pub fn ceiling_cases() -> Vec<Case> {
    vec![of_the_credit_loop(), below_the_capacity(), heaviest()]
}

fn of_the_credit_loop() -> Case {
    let terms = credit_terms();
    let below_0 = terms.iter().map(|term| Term {
        multiplier: -1,
        ..*term
    });
    let below_0: Vec<Term> = below_0.collect();
    case(vec![
        LentCall::accepted_start(),
        ceiling(&terms, 2, 0, Expected::Ceiling(2)),
        ceiling(&terms, 5, 0, Expected::Ceiling(2)),
        ceiling(&terms, 3, 0, NO_QUEUE),
        ceiling(&terms, 6, 0, NO_QUEUE),
        ceiling(&terms, 2, 1, NO_QUEUE),
        ceiling(&terms, 258, 0, NO_QUEUE),
        ceiling(&terms, (1 << 32) + 2, 0, NO_QUEUE),
        ceiling(&terms, 2, 1 << 32, NO_QUEUE),
        ceiling(&below_0, 2, 0, NOT_ABOVE_0),
        ceiling(&below_0, 3, 0, NO_QUEUE),
        ceiling(&[], 3, 0, Expected::NumberAndPlace(14, 0)),
        ceiling(&terms[..4], 3, 0, Expected::NumberAndPlace(13, 24)),
    ])
}

/// With capacity 5 at component 2 its ceiling is still 2, and a run comes up to it.
fn below_the_capacity() -> Case {
    let mut fabric = credit_loop();
    fabric.components[2].capacity = 5;
    let calls = vec![
        LentCall::accepted_start(),
        ceiling(&credit_terms(), 2, 0, Expected::Ceiling(2)),
        accepted_step(SOURCE_CHOOSES, [1, 1, 1, 0, 0, 0], [0, 0, 1, 0, 0, 1]),
        accepted_step(SOURCE_CHOOSES, [1, 1, 1, 0, 0, 0], [0, 0, 2, 0, 0, 0]),
        accepted_step(SOURCE_CHOOSES, [0; 6], [1, 0, 2, 0, 0, 0]),
    ];
    Case {
        fabric: Lent::new(fabric.to_file()),
        ..case(calls)
    }
}

/// Two queues on themselves, whose flows cancel in every term. What is divided is 31 times half of
/// the most weight that there can be, and it is divided by a little less than that half.
fn heaviest() -> Case {
    let fabric = Fabric {
        components: vec![queue(0, 0, 63, 0), queue(1, 1, 31, 0)],
        ..looped_queues(2)
    };
    let half = |component, multiplier| {
        let term = Term {
            component,
            index: 0,
            multiplier,
        };
        [term; MOST_TERMS / 2]
    };
    let terms = [half(0, MULTIPLIER_BOUND - 1), half(1, -MULTIPLIER_BOUND)].concat();
    Case {
        fabric: Lent::new(fabric.to_file()),
        ..case(vec![ceiling(&terms, 0, 0, Expected::Ceiling(31))])
    }
}

fn ceiling(terms: &[Term], queue: u64, colour: u64, expected: Expected) -> LentCall {
    let call = Call::Ceiling { queue, colour };
    LentCall::plain(call, &write_proposal(terms), 0, expected)
}

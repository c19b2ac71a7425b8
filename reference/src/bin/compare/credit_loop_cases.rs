//! The document's cases of start, step and check on the credit loop.

use reference::samples::{credit_loop, credit_terms};
use reference::terms::{write_proposal, Term};

use crate::case::{Call, Case, Expected, Lent, LentCall};

pub const LISTING: &str = "Q 2 0 1\nQ 5 0 1\nSUM 2\n";
pub const SOURCE_CHOOSES: [u8; 6] = [1, 0, 0, 0, 0, 0];
const SINK_CHOOSES: [u8; 6] = [0, 0, 0, 0, 1, 0];
const NO_SUCH_CHOICE: [u8; 6] = [2, 0, 0, 0, 0, 0];
pub const NO_EQUATION: Term = Term {
    component: 0,
    index: 0,
    multiplier: 1,
};

pub fn credit_loop_cases() -> Vec<Case> {
    let terms = credit_terms();
    let mut count_of_3 = vec![0; 64 * 6];
    count_of_3[64 * 2] = 3;
    vec![
        case(vec![
            LentCall::accepted_start(),
            accepted_step(SOURCE_CHOOSES, [1, 1, 1, 0, 0, 0], [0, 0, 1, 0, 0, 1]),
            accepted_step(SOURCE_CHOOSES, [1, 1, 1, 0, 0, 0], [0, 0, 2, 0, 0, 0]),
            accepted_step(SOURCE_CHOOSES, [0; 6], [1, 0, 2, 0, 0, 0]),
        ]),
        case(vec![
            LentCall::accepted_start(),
            accepted_step(SINK_CHOOSES, [0; 6], [0, 0, 0, 0, 1, 2]),
            step(NO_SUCH_CHOICE, Expected::NumberAndPlace(10, 0)),
        ]),
        case(vec![
            LentCall::accepted_start(),
            check(&terms, Expected::Listing(LISTING.to_string())),
            check(&terms[..4], Expected::NumberAndPlace(13, 24)),
            check(&[], Expected::NumberAndPlace(14, 0)),
            check(&[NO_EQUATION], Expected::NumberAndPlace(12, 0)),
        ]),
        Case {
            state: Lent::new(count_of_3),
            ..case(vec![step(SOURCE_CHOOSES, Expected::NumberAndPlace(22, 2))])
        },
    ]
}

pub fn case(calls: Vec<LentCall>) -> Case {
    Case {
        fabric: Lent::new(credit_loop().to_file()),
        state: Lent::new(vec![0xA5; 64 * 6]),
        calls,
        by_other_calls: false,
    }
}

pub fn accepted_step(choices: [u8; 6], moves: [u8; 6], first_bytes: [u8; 6]) -> LentCall {
    let expected = Expected::Step {
        moves: moves.to_vec(),
        first_bytes: first_bytes.to_vec(),
    };
    step(choices, expected)
}

fn step(choices: [u8; 6], expected: Expected) -> LentCall {
    LentCall::plain(Call::Step, &choices, 6, expected)
}

fn check(terms: &[Term], expected: Expected) -> LentCall {
    LentCall::plain(Call::Check, &write_proposal(terms), 64 * 6, expected)
}

//! Merges that hold their pick, on a source of colour 0 and one of colour 1, the merge of both and a
//! sink.

use reference::samples::merge_row;
use reference::state::COMPONENT_STATE;

use crate::case::{Call, Case, Expected, Lent, LentCall};

const FOUR: usize = 4;
const MERGE: usize = 2;
const BAD_STATE: Expected = Expected::NumberAndPlace(22, 2);
const BAD_CHOICE: Expected = Expected::NumberAndPlace(10, 2);

pub fn merge_cases() -> Vec<Case> {
    let mut cases = vec![a_held(), b_held()];
    cases.extend(not_offered());
    cases.extend(states());
    cases
}

/// The choice changes while the merge stalls; it picks again when the output was taken.
fn a_held() -> Case {
    from_start(vec![
        step([1, 2, 0, 0], [0, 0, 0], [1, 2, 1, 0]),
        step([0, 0, 1, 0], [0, 0, 0], [1, 2, 1, 0]),
        step_call([0, 0, 2, 0], BAD_CHOICE),
        step([0, 0, 1, 1], [1, 0, 1], [0, 2, 0, 0]),
        step([1, 0, 1, 1], [0, 2, 2], [1, 0, 0, 0]),
    ])
}

/// At first it is the only one offered, and in the end a start comes between.
fn b_held() -> Case {
    from_start(vec![
        step([0, 2, 0, 0], [0, 0, 0], [0, 2, 2, 0]),
        step([1, 0, 0, 0], [0, 0, 0], [1, 2, 2, 0]),
        step([0, 0, 0, 1], [0, 2, 2], [1, 0, 0, 0]),
        step([0, 2, 1, 0], [0, 0, 0], [1, 2, 2, 0]),
        LentCall::accepted_start(),
        step([1, 2, 0, 1], [1, 0, 1], [0, 2, 0, 0]),
    ])
}

/// What is held is not offered: the one offered is picked, and afterwards held if it was not taken.
fn not_offered() -> [Case; 6] {
    [
        ([0, 2, 1, 0], step([0, 0, 0, 0], [0, 0, 0], [0, 2, 2, 0])),
        ([0, 2, 1, 0], step([0, 0, 0, 1], [0, 2, 2], [0, 0, 0, 0])),
        ([1, 0, 2, 0], step([0, 0, 1, 0], [0, 0, 0], [1, 0, 1, 0])),
        ([1, 0, 2, 0], step([0, 0, 1, 1], [1, 0, 1], [0, 0, 0, 0])),
        ([0, 0, 1, 0], step([0, 0, 0, 0], [0, 0, 0], [0, 0, 0, 0])),
        ([0, 0, 2, 0], step([0, 0, 1, 1], [0, 0, 0], [0, 0, 0, 1])),
    ]
    .map(|(first_bytes, step)| case(state_of(first_bytes), vec![step]))
}

/// Byte 0 of a merge is 0, 1 or 2, and the others are 0.
fn states() -> Vec<Case> {
    let with_byte = |place, byte, expected| {
        let mut state = state_of([0; FOUR]);
        state[COMPONENT_STATE * MERGE + place] = byte;
        case(state, vec![LentCall::plain(Call::Run, &[], 0, expected)])
    };
    let mut cases = vec![
        with_byte(0, 1, Expected::ACCEPTED),
        with_byte(0, 2, Expected::ACCEPTED),
        with_byte(0, 3, BAD_STATE),
        with_byte(0, 255, BAD_STATE),
    ];
    cases.extend((1..COMPONENT_STATE).map(|place| with_byte(place, 1, BAD_STATE)));
    cases
}

fn from_start(steps: Vec<LentCall>) -> Case {
    let calls = [vec![LentCall::accepted_start()], steps].concat();
    case(vec![0xA5; COMPONENT_STATE * FOUR], calls)
}

fn case(state: Vec<u8>, calls: Vec<LentCall>) -> Case {
    Case {
        fabric: Lent::new(merge_row(1).to_file()),
        state: Lent::new(state),
        calls,
        by_other_calls: false,
    }
}

fn state_of(first_bytes: [u8; FOUR]) -> Vec<u8> {
    let mut state = vec![0; COMPONENT_STATE * FOUR];
    let own = state.iter_mut().step_by(COMPONENT_STATE);
    own.zip(first_bytes).for_each(|(byte, first)| *byte = first);
    state
}

/// An accepted step with what moves at A, B and the output, and byte 0 of each component after it.
fn step(choices: [u8; FOUR], moves: [u8; 3], first_bytes: [u8; FOUR]) -> LentCall {
    let expected = Expected::Step {
        moves: moves.to_vec(),
        first_bytes: first_bytes.to_vec(),
    };
    step_call(choices, expected)
}

fn step_call(choices: [u8; FOUR], expected: Expected) -> LentCall {
    LentCall::plain(Call::Step, &choices, 3, expected)
}

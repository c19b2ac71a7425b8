//! Merges that hold their pick, on a source of colour 0 and one of colour 1, the merge of both and a
//! sink.

use super::{first_bytes, moves, started};
use crate::merge::held_over_choice;
use crate::random::Random;
use crate::random_state::random_state;
use crate::refusal::number_and_place;
use crate::samples::merge_row;
use crate::signals::{signals, Channel};
use crate::state::COMPONENT_STATE;
use crate::{run, start};

/// The choices of a step, what moves at A, B and the output, and byte 0 of each component after it.
type Step = ([u8; 4], [u8; 3], [u8; 4]);

fn make_steps(state: &mut [u8], steps: &[Step]) {
    for (place, (choices, moved, after)) in steps.iter().enumerate() {
        let found = moves(&merge_row(1), state, choices);
        assert_eq!(found, moved, "moves of step {place}");
        assert_eq!(first_bytes(state), after, "state after step {place}");
    }
}

/// A state with these bytes 0, whether or not a start leads to it.
fn state_of(first_bytes: [u8; 4]) -> Vec<u8> {
    let own = |byte| [&[byte][..], &[0; COMPONENT_STATE - 1]].concat();
    first_bytes.into_iter().flat_map(own).collect()
}

#[test]
fn a_stalled_merge_keeps_its_packet_when_the_choice_changes() {
    let a_held = [
        ([1, 2, 0, 0], [0, 0, 0], [1, 2, 1, 0]),
        ([0, 0, 1, 0], [0, 0, 0], [1, 2, 1, 0]),
        ([0, 0, 1, 1], [1, 0, 1], [0, 2, 0, 0]),
    ];
    make_steps(&mut started(&merge_row(1)), &a_held);
    let b_held = [
        ([1, 2, 1, 0], [0, 0, 0], [1, 2, 2, 0]),
        ([0, 0, 0, 0], [0, 0, 0], [1, 2, 2, 0]),
        ([0, 0, 0, 1], [0, 2, 2], [1, 0, 0, 0]),
    ];
    make_steps(&mut started(&merge_row(1)), &b_held);
}

#[test]
fn the_packet_is_offered_again_and_its_input_alone_is_taken() {
    let channel = |offer, take| Channel { offer, take };
    for (first_choice, colour) in [(0, 0), (1, 1)] {
        let mut state = started(&merge_row(1));
        make_steps(
            &mut state,
            &[(
                [1, 2, first_choice, 0],
                [0, 0, 0],
                [1, 2, 1 + first_choice, 0],
            )],
        );
        for taken in [false, true] {
            let choices = [0, 0, 1 - first_choice, u8::from(taken)];
            let found = signals(&merge_row(1), state.as_chunks().0, &choices);
            let expected = [
                channel(Some(0), taken && first_choice == 0),
                channel(Some(1), taken && first_choice == 1),
                channel(Some(colour), taken),
            ];
            assert_eq!(found, expected);
        }
    }
}

/// The other input comes in the next step, and the choice names it.
#[test]
fn the_only_one_offered_is_held_too() {
    let a_alone = [
        ([1, 0, 1, 0], [0, 0, 0], [1, 0, 1, 0]),
        ([0, 2, 1, 0], [0, 0, 0], [1, 2, 1, 0]),
        ([0, 0, 1, 1], [1, 0, 1], [0, 2, 0, 0]),
    ];
    make_steps(&mut started(&merge_row(1)), &a_alone);
    let b_alone = [
        ([0, 2, 0, 0], [0, 0, 0], [0, 2, 2, 0]),
        ([1, 0, 0, 0], [0, 0, 0], [1, 2, 2, 0]),
        ([0, 0, 0, 1], [0, 2, 2], [1, 0, 0, 0]),
    ];
    make_steps(&mut started(&merge_row(1)), &b_alone);
}

/// Both inputs are offered again, and the choice picks.
#[test]
fn the_hold_goes_when_the_output_is_taken() {
    let a_held = [
        ([1, 2, 0, 0], [0, 0, 0], [1, 2, 1, 0]),
        ([0, 0, 0, 1], [1, 0, 1], [0, 2, 0, 0]),
        ([1, 0, 1, 1], [0, 2, 2], [1, 0, 0, 0]),
    ];
    make_steps(&mut started(&merge_row(1)), &a_held);
    let b_held = [
        ([1, 2, 1, 0], [0, 0, 0], [1, 2, 2, 0]),
        ([0, 0, 1, 1], [0, 2, 2], [1, 0, 0, 0]),
        ([0, 2, 0, 1], [1, 0, 1], [0, 2, 0, 0]),
    ];
    make_steps(&mut started(&merge_row(1)), &b_held);
}

/// Start does not lead to such states. The one offered is picked, and what is held afterwards goes
/// by this step alone.
#[test]
fn the_held_input_is_not_offered() {
    for choice in [0, 1] {
        let only_b = [0, 2, 1, 0];
        let stalls = ([0, 0, choice, 0], [0, 0, 0], [0, 2, 2, 0]);
        make_steps(&mut state_of(only_b), &[stalls]);
        let taken = ([0, 0, choice, 1], [0, 2, 2], [0, 0, 0, 0]);
        make_steps(&mut state_of(only_b), &[taken]);

        let only_a = [1, 0, 2, 0];
        let stalls = ([0, 0, choice, 0], [0, 0, 0], [1, 0, 1, 0]);
        make_steps(&mut state_of(only_a), &[stalls]);
        let taken = ([0, 0, choice, 1], [1, 0, 1], [0, 0, 0, 0]);
        make_steps(&mut state_of(only_a), &[taken]);
    }
}

#[test]
fn a_merge_with_nothing_offered_holds_nothing() {
    for held in [1, 2] {
        for choice in [0, 1] {
            for sink in [0, 1] {
                let step = ([0, 0, choice, sink], [0, 0, 0], [0, 0, 0, sink]);
                make_steps(&mut state_of([0, 0, held, 0]), &[step]);
            }
        }
    }
}

/// The first merge stalls though the sink takes, since the second picks its other input.
#[test]
fn merges_in_a_row_hold_each_its_own() {
    let fabric = merge_row(2);
    let mut state = started(&fabric);
    assert_eq!(
        moves(&fabric, &mut state, &[1, 2, 0, 2, 1, 1]),
        [0, 0, 0, 2, 2]
    );
    assert_eq!(first_bytes(&state), [1, 2, 1, 0, 0, 0]);
    assert_eq!(moves(&fabric, &mut state, &[0, 0, 1, 2, 0, 0]), [0; 5]);
    assert_eq!(first_bytes(&state), [1, 2, 1, 2, 1, 0]);
    assert_eq!(
        moves(&fabric, &mut state, &[0, 0, 1, 0, 1, 1]),
        [1, 0, 1, 0, 1]
    );
    assert_eq!(first_bytes(&state), [0, 2, 0, 2, 0, 0]);
}

/// Of all bytes, choices and offers.
#[test]
fn where_the_hold_decides_against_the_choice() {
    let merge = merge_row(1).components[2];
    let mut found = Vec::new();
    for (held, choice) in [(0, 0), (0, 1), (1, 0), (1, 1), (2, 0), (2, 1)] {
        for offered in [[false, false], [false, true], [true, false], [true, true]] {
            let channel = |offered: bool| Channel {
                offer: offered.then_some(0),
                take: false,
            };
            let channels = [channel(offered[0]), channel(offered[1]), channel(true)];
            let state = &state_of([held, 0, 0, 0])[..COMPONENT_STATE];
            let state = state.try_into().expect("the state of one component");
            if held_over_choice(&merge, state, choice, &channels) {
                found.push((held, choice, offered));
            }
        }
    }
    assert_eq!(found, [(1, 1, [true, true]), (2, 0, [true, true])]);
}

#[test]
fn the_choice_of_a_holding_merge_is_still_0_or_1() {
    for held in [1, 2] {
        for (choice, answer) in [(0, (0, 0)), (1, (0, 0)), (2, (10, 2)), (255, (10, 2))] {
            let mut state = state_of([1, 2, held, 0]);
            let found = run(&merge_row(1).to_file(), &mut state, &[0, 0, choice, 0]);
            assert_eq!(number_and_place(&found), answer);
            assert_eq!(state, state_of([1, 2, held, 0]));
        }
    }
}

#[test]
fn start_holds_nothing_whatever_was_held() {
    let mut state = state_of([1, 2, 2, 1]);
    assert_eq!(start(&merge_row(1).to_file(), &mut state), Ok(()));
    assert_eq!(state, [0; 4 * COMPONENT_STATE]);
}

/// Of 20 times 63 merges half hold, A as often as B.
#[test]
fn random_states_hold_either_input() {
    let mut of_byte = [0; 3];
    for number in 0..20 {
        let state = random_state(&mut Random::new(8, number), &merge_row(63));
        let merges = first_bytes(&state).into_iter().skip(2).step_by(2);
        merges.for_each(|byte| of_byte[usize::from(byte)] += 1);
    }
    let [nothing, a, b] = of_byte;
    assert_eq!(nothing + a + b, 20 * 63);
    assert!(nothing > 500 && a > 250 && b > 250, "{of_byte:?}");
}

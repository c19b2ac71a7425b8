//! Persistent channels, by the signals of two steps, one after the other.

use super::{fabric_of, moves, started};
use crate::component::Kind;
use crate::merge::held_over_choice;
use crate::persistence::persists;
use crate::random::Random;
use crate::random_state::{random_choices, random_state};
use crate::samples::merge_row;
use crate::signals::{signals, Channel};
use crate::state_calls::make_step;

#[test]
fn what_may_follow_on_a_channel() {
    let offers = [None, Some(0), Some(1)];
    let all = offers.map(|offer| [false, true].map(|take| Channel { offer, take }));
    // In the order of `all`: not offered, colour 0 and colour 1, each not taken and taken.
    let anything = [true; 6];
    for (before, follows) in all.concat().into_iter().zip([
        anything,
        [false, true, false, true, false, true],
        [false, false, true, true, false, false],
        anything,
        [false, false, false, false, true, true],
        anything,
    ]) {
        let found: Vec<bool> = all.concat().iter().map(|&c| persists(before, c)).collect();
        assert_eq!(found, follows, "after {before:?}");
    }
}

/// From any good state, with merges that hold an input that is offered or not.
#[test]
fn what_waits_is_there_in_the_next_step() {
    let (mut offers, mut takes, mut over_choice) = (0, 0, 0);
    for number in 0..200 {
        let random = &mut Random::new(7, number);
        let fabric = fabric_of(random);
        let mut state = random_state(random, &fabric);
        let states = state.as_chunks_mut().0;
        let choices = random_choices(random, &fabric, 10);
        let mut steps = choices.chunks(fabric.components.len());
        let mut before = make_step(&fabric, states, steps.next().expect("ten steps"));
        for choices in steps {
            let held = states.to_vec();
            let after = make_step(&fabric, states, choices);
            for (channel, (&before, &after)) in before.iter().zip(&after).enumerate() {
                let text = format!("fabric {number}, channel {channel}: {before:?}, {after:?}");
                assert!(persists(before, after), "{text}");
                offers += u64::from(before.offer_not_taken().is_some());
                takes += u64::from(before.take_without_offer());
            }
            for ((component, held), &choice) in fabric.components.iter().zip(&held).zip(choices) {
                let is_merge = component.kind == Kind::Merge;
                over_choice +=
                    u64::from(is_merge && held_over_choice(component, held, choice, &after));
            }
            before = after;
        }
    }
    assert!(offers > 10_000, "{offers} offers");
    assert!(takes > 10_000, "{takes} takes");
    assert!(over_choice > 300, "{over_choice} picks over the choice");
}

/// A merge that forgets its pick changes its packet with the choice.
#[test]
fn without_the_hold_an_offer_changes() {
    let fabric = merge_row(1);
    let mut state = started(&fabric);
    let before = signals(&fabric, state.as_chunks().0, &[1, 2, 0, 0]);
    moves(&fabric, &mut state, &[1, 2, 0, 0]);
    let other_choice = [0, 0, 1, 0];
    let after = signals(&fabric, state.as_chunks().0, &other_choice);
    assert!(persists(before[2], after[2]));
    state[64 * 2] = 0;
    let after = signals(&fabric, state.as_chunks().0, &other_choice);
    assert!(!persists(before[2], after[2]));
}

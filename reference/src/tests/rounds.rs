//! The signals do not hang on the order in which the components are listed.

use super::{moves, started};
use crate::fabric::Fabric;
use crate::samples::{credit_loop, function_row, switch_row};
use crate::signals::{signals, Channel};

/// The fabric and its choices as they are listed, backwards, and every second one first.
fn listed_in_each_way(fabric: &Fabric, choices: &[u8]) -> [(Fabric, Vec<u8>); 3] {
    let count = choices.len();
    let forwards: Vec<usize> = (0..count).collect();
    let backwards = (0..count).rev().collect();
    let odd_first = (1..count).step_by(2).chain((0..count).step_by(2)).collect();
    [forwards, backwards, odd_first].map(|places| {
        let components = places.iter().map(|&place| fabric.components[place]);
        let listed = Fabric {
            components: components.collect(),
            ..*fabric
        };
        let choices = places.iter().map(|&place| choices[place]);
        (listed, choices.collect())
    })
}

/// The choices of a source that is first and a sink that is last.
fn at_the_ends(count: usize, source: u8, sink: u8) -> Vec<u8> {
    let mut choices = vec![0; count];
    choices[0] = source;
    choices[count - 1] = sink;
    choices
}

#[test]
fn a_row_of_functions_moves_as_one() {
    let row = function_row(128);
    for (fabric, choices) in listed_in_each_way(&row, &at_the_ends(128, 1, 1)) {
        assert_eq!(moves(&fabric, &mut started(&fabric), &choices), [1; 127]);
    }
}

/// Offers go down the row, takes come up, each without the other.
#[test]
fn a_row_of_functions_that_only_offers_or_only_takes() {
    let row = function_row(128);
    for (choice, offer, take) in [((1, 0), Some(0), false), ((0, 1), None, true)] {
        for (fabric, choices) in listed_in_each_way(&row, &at_the_ends(128, choice.0, choice.1)) {
            let state = started(&fabric);
            let found = signals(&fabric, state.as_chunks().0, &choices);
            assert_eq!(found, [Channel { offer, take }; 127]);
        }
    }
}

/// Colour 0 goes by the outputs B, colour 1 by the outputs C.
#[test]
fn a_row_of_switches_into_merges() {
    let row = switch_row(63);
    for (choice, pair) in [(1, [1, 0, 1]), (2, [0, 2, 2])] {
        let moved = [vec![choice], pair.repeat(63)].concat();
        for (fabric, choices) in listed_in_each_way(&row, &at_the_ends(128, choice, 1)) {
            assert_eq!(moves(&fabric, &mut started(&fabric), &choices), moved);
        }
    }
}

#[test]
fn the_credit_loop() {
    for (fabric, choices) in listed_in_each_way(&credit_loop(), &[1, 0, 0, 0, 1, 0]) {
        let mut state = started(&fabric);
        assert_eq!(moves(&fabric, &mut state, &choices), [1, 1, 1, 0, 0, 0]);
        assert_eq!(moves(&fabric, &mut state, &choices), [1; 6]);
    }
}

//! Times start, step and run.

use std::hint::black_box;

use reference::random::Random;
use reference::random_state::random_choices;
use reference::state::COMPONENT_STATE;
use reference::{run, start, step, Fabric};

use crate::timing::{time_alternately, Times};
use reference::library::{fabric_run, fabric_start, fabric_step};

const STEPS: usize = 100;

pub fn time_all(fabric: &Fabric, mut report: impl FnMut(&str, Times)) {
    let random = &mut Random::new(1, 0);
    report("start", time_start(fabric));
    report("step", time_step(fabric, random));
    report(&format!("run of {STEPS} steps"), time_run(fabric, random));
}

fn time_start(fabric: &Fabric) -> Times {
    let file = fabric.to_file();
    let mut state = started(fabric);
    let mut second_state = state.clone();
    time_alternately(
        || unsafe {
            let file = black_box(&file);
            fabric_start(file.as_ptr(), file.len(), state.as_mut_ptr(), state.len()) == 0
        },
        || start(black_box(&file), &mut second_state).is_ok(),
    )
}

/// Each step goes on from the state that the one before left.
fn time_step(fabric: &Fabric, random: &mut Random) -> Times {
    let file = fabric.to_file();
    let choices = random_choices(random, fabric, 1);
    let mut state = started(fabric);
    let mut moves = vec![0; fabric.channels];
    let (mut second_state, mut second_moves) = (state.clone(), moves.clone());
    time_alternately(
        || unsafe {
            let file = black_box(&file);
            let (state, state_len) = (state.as_mut_ptr(), state.len());
            let (given, given_len) = (choices.as_ptr(), choices.len());
            let (moves, moves_len) = (moves.as_mut_ptr(), moves.len());
            fabric_step(
                file.as_ptr(),
                file.len(),
                state,
                state_len,
                given,
                given_len,
                moves,
                moves_len,
            ) == 0
        },
        || {
            step(
                black_box(&file),
                &mut second_state,
                &choices,
                &mut second_moves,
            )
            .is_ok()
        },
    )
}

fn time_run(fabric: &Fabric, random: &mut Random) -> Times {
    let file = fabric.to_file();
    let choices = random_choices(random, fabric, STEPS);
    let mut state = started(fabric);
    let mut second_state = state.clone();
    time_alternately(
        || unsafe {
            let file = black_box(&file);
            let (given, given_len) = (choices.as_ptr(), choices.len());
            let (state, state_len) = (state.as_mut_ptr(), state.len());
            fabric_run(
                file.as_ptr(),
                file.len(),
                state,
                state_len,
                given,
                given_len,
            ) == 0
        },
        || run(black_box(&file), &mut second_state, &choices).is_ok(),
    )
}

fn started(fabric: &Fabric) -> Vec<u8> {
    let mut state = vec![0; COMPONENT_STATE * fabric.components.len()];
    start(&fabric.to_file(), &mut state).expect("an accepted start");
    state
}

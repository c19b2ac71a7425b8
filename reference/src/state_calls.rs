//! The calls on a state: start, step and run. A refused call writes nothing.

use crate::choices::lowest_bad_choice;
use crate::fabric::Fabric;
use crate::packed::read_file;
use crate::refusal::Refusal;
use crate::signals::{signals, Channel};
use crate::state::{
    advance, byte_of, lowest_bad_state, start_state, ComponentState, COMPONENT_STATE,
};

/// Writes the fillings, and nothing held.
pub fn start(file: &[u8], state: &mut [u8]) -> Result<(), Refusal> {
    let (fabric, states) = read_with_space(file, state)?;
    for (state, component) in states.iter_mut().zip(&fabric.components) {
        *state = start_state(component);
    }
    Ok(())
}

/// Makes one step and writes a byte a channel: 0, or 1 + the colour that moved.
pub fn step(
    file: &[u8],
    state: &mut [u8],
    choices: &[u8],
    moves: &mut [u8],
) -> Result<(), Refusal> {
    let (fabric, states) = read_with_state(file, state)?;
    if choices.len() != fabric.components.len() {
        return Err(Refusal::ChoiceCount);
    }
    test_choices(&fabric, choices)?;
    let moves = moves
        .get_mut(..fabric.channels)
        .ok_or(Refusal::ResultSpace)?;
    let channels = make_step(&fabric, states, choices);
    for (moved, channel) in moves.iter_mut().zip(channels) {
        *moved = byte_of(channel.transfer());
    }
    Ok(())
}

/// Makes as many steps as there are choices for, none included.
pub fn run(file: &[u8], state: &mut [u8], choices: &[u8]) -> Result<(), Refusal> {
    let (fabric, states) = read_with_state(file, state)?;
    let steps = choices.chunks_exact(fabric.components.len());
    if !steps.remainder().is_empty() {
        return Err(Refusal::ChoiceCount);
    }
    test_choices(&fabric, choices)?;
    for step in steps {
        make_step(&fabric, states, step);
    }
    Ok(())
}

/// Refusals 1 to 8 and 21, in this order.
fn read_with_space<'a>(
    file: &[u8],
    state: &'a mut [u8],
) -> Result<(Fabric, &'a mut [ComponentState]), Refusal> {
    let fabric = read_file(file)?;
    let states = state
        .get_mut(..COMPONENT_STATE * fabric.components.len())
        .ok_or(Refusal::StateShort)?;
    Ok((fabric, states.as_chunks_mut().0))
}

/// Refusals 1 to 8, 21 and 22, in this order.
fn read_with_state<'a>(
    file: &[u8],
    state: &'a mut [u8],
) -> Result<(Fabric, &'a mut [ComponentState]), Refusal> {
    let (fabric, states) = read_with_space(file, state)?;
    match lowest_bad_state(&fabric, states) {
        Some(component) => Err(Refusal::BadState { component }),
        None => Ok((fabric, states)),
    }
}

/// Refusal 10.
fn test_choices(fabric: &Fabric, choices: &[u8]) -> Result<(), Refusal> {
    match lowest_bad_choice(&fabric.components, choices) {
        Some(offset) => Err(Refusal::BadChoice { offset }),
        None => Ok(()),
    }
}

/// All transfers happen together: the signals of all channels come first.
pub fn make_step(fabric: &Fabric, states: &mut [ComponentState], choices: &[u8]) -> Vec<Channel> {
    let channels = signals(fabric, states, choices);
    let given = states.iter_mut().zip(choices);
    for (component, (state, &choice)) in fabric.components.iter().zip(given) {
        advance(component, state, choice, &channels);
    }
    channels
}

//! The document's cases, and some around them.

mod ceiling;
mod check_many;
mod choices;
mod circles;
mod credit_loop;
mod digest;
mod each_dependence;
mod equations;
mod held_merges;
mod inside_the_sets;
mod kinds;
mod layout;
mod listing;
mod netlist;
mod netlist_messages;
mod order;
mod order_of_ceiling;
mod order_of_check;
mod order_of_check_many;
mod order_of_reach;
mod order_of_step;
mod panels;
mod persistence;
mod places;
mod proposal_text;
mod proposals;
mod ranges;
mod reach;
mod reach_in_rounds;
mod removal;
mod round_trips;
mod rounds;
mod runs;
mod shortest_circles;
mod smallest_sets;
mod solver;
mod space;
mod sparse;
mod states;
mod sum_basis;
mod traps;
mod wrong_fields;

use crate::component::{Component, Kind};
use crate::fabric::Fabric;
use crate::packed::file_length;
use crate::random::Random;
use crate::random_fabric::{random_fabric, Plan};
use crate::refusal::number_and_place;
use crate::samples::{sink, source};
use crate::state::COMPONENT_STATE;
use crate::terms::{write_proposal, Term};
use crate::{check, pack, start, step, unpack};

const ROOM: usize = 130 * 24;

fn unpack_answer(file: &[u8]) -> (u32, u64) {
    number_and_place(&unpack(file, &mut [0; ROOM]))
}

fn pack_answer(colours: u64, channels: u64, table: &[u8]) -> (u32, u64) {
    number_and_place(&pack(colours, channels, table, &mut [0; ROOM]))
}

/// Number and place of a fabric, the same from its file and from its table.
fn fabric_answer(fabric: &Fabric) -> (u32, u64) {
    let from_file = unpack_answer(&fabric.to_file());
    let from_table = pack_answer(
        fabric.colours as u64,
        fabric.channels as u64,
        &fabric.to_table(),
    );
    assert_eq!(from_file, from_table);
    from_file
}

/// A source, the component between and a sink.
fn source_then_sink(between: Component) -> Fabric {
    let components = vec![source(0), between, sink(1)];
    Fabric {
        colours: 1,
        channels: 2,
        components,
    }
}

fn packed(fabric: &Fabric) -> Vec<u8> {
    let mut file = vec![0; file_length(fabric.components.len())];
    let result = pack(
        fabric.colours as u64,
        fabric.channels as u64,
        &fabric.to_table(),
        &mut file,
    );
    assert_eq!(result, Ok(()));
    file
}

fn function(a: u8, b: u8) -> Component {
    Component::new(Kind::Function, [a, b, 0])
}

/// What an accepted reach writes.
fn sets(fabric: &Fabric) -> Vec<u8> {
    let mut sets = vec![0xA5; fabric.channels];
    assert_eq!(crate::reach(&fabric.to_file(), &mut sets), Ok(()));
    sets
}

/// The state that start writes.
fn started(fabric: &Fabric) -> Vec<u8> {
    let mut state = vec![0xA5; COMPONENT_STATE * fabric.components.len()];
    assert_eq!(start(&fabric.to_file(), &mut state), Ok(()));
    state
}

/// Makes an accepted step and gives the moves.
fn moves(fabric: &Fabric, state: &mut [u8], choices: &[u8]) -> Vec<u8> {
    let mut moves = vec![0xA5; fabric.channels];
    assert_eq!(step(&fabric.to_file(), state, choices, &mut moves), Ok(()));
    moves
}

/// Byte 0 of each component's state.
fn first_bytes(state: &[u8]) -> Vec<u8> {
    state.iter().step_by(COMPONENT_STATE).copied().collect()
}

fn check_answer(fabric: &Fabric, terms: &[Term]) -> (u32, u64) {
    let mut weights = vec![0; 64 * fabric.components.len()];
    number_and_place(&check(
        &fabric.to_file(),
        &write_proposal(terms),
        &mut weights,
    ))
}

/// Entries of 8 bytes, lowest first.
fn entries(memory: &[u8]) -> Vec<i64> {
    let entries = memory.as_chunks().0.iter();
    entries.map(|bytes| i64::from_le_bytes(*bytes)).collect()
}

/// A block whose count is these two bytes.
fn block(count: [u8; 2], terms: &[Term]) -> Vec<u8> {
    [&count[..], &write_proposal(terms)].concat()
}

/// The ceiling, or number and place of the refusal.
fn ceiling_answer(
    fabric: &Fabric,
    terms: &[Term],
    queue: u64,
    colour: u64,
) -> Result<u64, (u32, u64)> {
    let answer = crate::ceiling(&fabric.to_file(), &write_proposal(terms), queue, colour);
    answer.map_err(|_| number_and_place(&answer))
}

fn term(component: usize, index: usize, multiplier: i64) -> Term {
    Term {
        component,
        index,
        multiplier,
    }
}

fn fabric_of(random: &mut Random) -> Fabric {
    let plan = Plan {
        size: random.pick(&[3, 12, 60, 128]),
        colours: random.between(1, 8),
        circles: false,
    };
    random_fabric(random, &plan)
}

/// Two sources into a merge, and a sink.
fn merged() -> Fabric {
    Fabric {
        colours: 1,
        channels: 3,
        components: vec![
            source(0),
            source(1),
            Component::new(Kind::Merge, [0, 1, 2]),
            sink(2),
        ],
    }
}

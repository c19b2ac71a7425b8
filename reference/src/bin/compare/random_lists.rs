//! Lists of calls on one state, as a start left it: accepted and refused ones mixed, with checks,
//! also of many proposals, ceilings and colour sets between them.

use reference::check::weights_length;
use reference::random::Random;
use reference::random_proposal::Equations;
use reference::random_state::random_choices;
use reference::state::COMPONENT_STATE;
use reference::terms::write_proposal;
use reference::{Fabric, Kind};

use crate::case::{Call, Case, Expected, LentCall};
use crate::check_many_cases::check_many;
use crate::damaged_blocks::random_blocks;
use crate::damaged_choices::good_or_damaged_choices;
use crate::damaged_proposal::random_proposal;
use crate::random_calls::random_step_count;
use crate::random_cases::{lent, random_memory};
use crate::random_ceilings::{places_above_0, random_ceiling};
use crate::random_check_many::blocks_and_results;
use crate::random_fabrics::good_fabric;

/// How many steps a long run takes, and how many bytes of choices a piece of it at the most.
const LONG: usize = 100_000;
const PIECE: usize = 1 << 17;

/// How many blocks are followed from the beginning at the most.
const BLOCKS: usize = 4;

/// For how many weights of a sum at most the ceiling is followed from the beginning.
const CEILINGS: usize = 4;

pub fn random_list(random: &mut Random) -> Case {
    let mut fabric = good_fabric(random);
    if random.percent(50) {
        draw_small_queues(random, &mut fabric);
    }
    list_on(random, &fabric)
}

/// Queues that fill up and run empty within a few steps.
fn draw_small_queues(random: &mut Random, fabric: &mut Fabric) {
    let components = fabric.components.iter_mut();
    for queue in components.filter(|component| component.kind == Kind::Queue) {
        queue.capacity = random.between(1, 5) as u8;
        queue.filling = queue.filling.min(random.below(3) as u8).min(queue.capacity);
        if queue.filling == 0 {
            queue.fill_colour = 0;
        }
    }
}

/// Begins with a start that is accepted and a proposal that most often is, and sometimes blocks.
pub fn list_on(random: &mut Random, fabric: &Fabric) -> Case {
    let equations = Equations::of(fabric);
    let mut calls = vec![LentCall::accepted_start()];
    calls.extend(cancelling_calls(random, fabric, &equations));
    if random.percent(30) {
        calls.push(few_blocks(random, fabric, &equations));
    }
    for _ in 0..random.pick(&[0, 1, 5, 20]) {
        calls.push(random_call(random, fabric, &equations));
    }
    let past = random.pick(&[0, 0, 1, 70]);
    case_on(random, fabric, past, calls)
}

/// A run of `LONG` steps, in pieces.
pub fn long_run(random: &mut Random, fabric: &Fabric) -> Case {
    let equations = Equations::of(fabric);
    let mut calls = vec![LentCall::accepted_start()];
    calls.extend((0..3).flat_map(|_| cancelling_calls(random, fabric, &equations)));
    let mut left = LONG;
    while left > 0 {
        let piece = random.between(1, left.min(PIECE / fabric.components.len()));
        let choices = random_choices(random, fabric, piece);
        calls.push(LentCall::plain(Call::Run, &choices, 0, Expected::ACCEPTED));
        left -= piece;
    }
    case_on(random, fabric, 0, calls)
}

fn case_on(random: &mut Random, fabric: &Fabric, past: usize, calls: Vec<LentCall>) -> Case {
    let state = random.bytes(COMPONENT_STATE * fabric.components.len() + past);
    Case {
        fabric: lent(random, fabric.to_file()),
        state: lent(random, state),
        calls,
        by_other_calls: false,
    }
}

/// A check of a proposal that is not refused for a flow, and ceilings that it gives.
fn cancelling_calls(random: &mut Random, fabric: &Fabric, equations: &Equations) -> Vec<LentCall> {
    let proposal = write_proposal(&equations.cancelling_terms(random));
    let space = weights_length(fabric.components.len());
    let check = LentCall::plain(Call::Check, &proposal, space, Expected::Nothing);
    let mut places = places_above_0(fabric, &proposal);
    random.shuffle(&mut places);
    places.truncate(CEILINGS);
    let ceilings = places.into_iter().map(|(queue, colour)| {
        let call = Call::Ceiling { queue, colour };
        LentCall::plain(call, &proposal, 0, Expected::ACCEPTED)
    });
    [check].into_iter().chain(ceilings).collect()
}

fn few_blocks(random: &mut Random, fabric: &Fabric, equations: &Equations) -> LentCall {
    let count = random.between(1, BLOCKS);
    let blocks = random_blocks(random, equations, count);
    check_many(fabric.components.len(), &blocks, Expected::ACCEPTED)
}

fn random_call(random: &mut Random, fabric: &Fabric, equations: &Equations) -> LentCall {
    let none = Vec::new;
    let (call, given, result) = match random.below(100) {
        0..6 => (Call::Start, none(), none()),
        6..60 => {
            let choices = good_or_damaged_choices(random, fabric, 1);
            let moves = random_memory(random, fabric.channels);
            (Call::Step, choices, moves)
        }
        60..93 => {
            let steps = random_step_count(random);
            let choices = good_or_damaged_choices(random, fabric, steps);
            (Call::Run, choices, none())
        }
        93..94 => (Call::Reach, none(), random_memory(random, fabric.channels)),
        94..97 => {
            let proposal = random_proposal(random, equations);
            let weights = random_memory(random, weights_length(fabric.components.len()));
            (Call::Check, proposal, weights)
        }
        97..98 => {
            let (blocks, results) = blocks_and_results(random, fabric, equations);
            (Call::CheckMany, blocks, results)
        }
        _ => {
            let proposal = random_proposal(random, equations);
            let ceiling = random_ceiling(random, fabric, &proposal);
            (ceiling, proposal, none())
        }
    };
    LentCall {
        call,
        given: lent(random, given),
        result: lent(random, result),
        expected: Expected::Nothing,
    }
}

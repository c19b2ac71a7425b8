//! The document's own cases with the numbers it gives, and others at the bounds.

use reference::component::{Component, Kind};
use reference::random::Random;
use reference::random_fabric::{random_fabric, Plan};
use reference::samples::{
    credit_loop, credit_loops, fork_into_join, forks_into_one_channel, function_row, looped_queues,
    queue, sink, source,
};
use reference::terms::{write_proposal, Term, MOST_TERMS, MULTIPLIER_BOUND};
use reference::Fabric;

use crate::case::{Call, Case, Expected, Lent, LentCall};
use crate::ceiling_cases::ceiling_cases;
use crate::check_many_cases::check_many_cases;
use crate::credit_loop_cases::credit_loop_cases;
use crate::merge_cases::merge_cases;
use crate::pack_cases::pack_cases;
use crate::panel_cases::panel_cases;
use crate::random_lists::long_run;
use crate::reach_cases::reach_cases;

pub fn fixed_cases() -> Vec<Case> {
    let mut cases = file_cases();
    cases.extend(pack_cases());
    cases.extend(credit_loop_cases());
    cases.extend(ceiling_cases());
    cases.extend(check_many_cases());
    cases.extend(merge_cases());
    cases.extend(reach_cases());
    cases.extend(panel_cases());
    cases.push(heaviest_sum());
    cases.extend(long_runs());
    cases
}

/// A queue on itself, whose flow cancels in every term, and as much weight as there can be.
fn heaviest_sum() -> Case {
    let fabric = Fabric {
        components: vec![queue(0, 0, 63, 63)],
        ..looped_queues(1)
    };
    let term = Term {
        component: 0,
        index: 0,
        multiplier: -MULTIPLIER_BOUND,
    };
    let proposal = write_proposal(&[term; MOST_TERMS]);
    let listing = Expected::Listing("Q 0 0 -4294967296\nSUM -270582939648\n".to_string());
    Case {
        fabric: Lent::new(fabric.to_file()),
        state: Lent::nothing(),
        calls: vec![LentCall::plain(Call::Check, &proposal, 64, listing)],
        by_other_calls: false,
    }
}

fn long_runs() -> Vec<Case> {
    let random = &mut Random::new(0, 0);
    let plan = Plan {
        size: 128,
        colours: 8,
        circles: false,
    };
    let largest = random_fabric(random, &plan);
    vec![
        long_run(random, &credit_loops(21)),
        long_run(random, &largest),
    ]
}

/// Each fabric as a file to unpack and as a table to pack; then memory of no length at all.
fn file_cases() -> Vec<Case> {
    let mut cases = Vec::new();
    for (fabric, expected) in fixed_fabrics() {
        let (file, table) = (fabric.to_file(), fabric.to_table());
        let pack = Call::Pack {
            colours: fabric.colours as u64,
            channels: fabric.channels as u64,
        };
        let (file_space, table_space) = (file.len(), table.len());
        cases.push(fixed_case(
            Call::Unpack,
            file,
            table_space,
            expected.clone(),
        ));
        cases.push(fixed_case(pack, table, file_space, expected));
    }
    let pack = Call::Pack {
        colours: 1,
        channels: 1,
    };
    for (call, expected) in [
        (Call::Unpack, Expected::NumberAndPlace(1, 0)),
        (pack, Expected::NumberAndPlace(3, 0)),
    ] {
        cases.push(fixed_case(call, Vec::new(), 0, expected));
    }
    cases
}

fn fixed_case(call: Call, input: Vec<u8>, space: usize, expected: Expected) -> Case {
    Case {
        fabric: Lent::new(input),
        state: Lent::nothing(),
        calls: vec![LentCall::plain(call, &[], space, expected)],
        by_other_calls: true,
    }
}

fn fixed_fabrics() -> Vec<(Fabric, Expected)> {
    let one_queue = |capacity| {
        let components = vec![source(0), queue(0, 1, capacity, 0), sink(1)];
        Fabric {
            colours: 1,
            channels: 2,
            components,
        }
    };
    let looped_function = Component::new(Kind::Function, [0, 0, 0]);
    vec![
        (credit_loop(), Expected::ACCEPTED),
        (one_queue(63), Expected::ACCEPTED),
        (one_queue(0), Expected::NumberAndPlace(6, 1)),
        (looped_queues(128), Expected::ACCEPTED),
        (looped_queues(129), Expected::NumberAndPlace(3, 0)),
        (forks_into_one_channel(), Expected::NumberAndPlace(7, 0)),
        (fork_into_join(), Expected::NumberAndPlace(8, 0)),
        (function_row(128), Expected::ACCEPTED),
        (
            Fabric {
                colours: 1,
                channels: 1,
                components: vec![looped_function],
            },
            Expected::NumberAndPlace(8, 0),
        ),
    ]
}

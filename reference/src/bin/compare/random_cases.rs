//! Random cases: one call, or a list of calls on one state.

use reference::open_table::ROW;
use reference::packed::{file_length, RECORD};
use reference::random::Random;

use crate::case::{Call, Case, Expected, Lent, LentCall};
use crate::damaged_file::random_file;
use crate::damaged_table::random_table;
use crate::lent_memory::Guard;
use crate::random_calls::random_fabric_call;
use crate::random_ceilings::random_ceiling_case;
use crate::random_check_many::random_check_many_case;
use crate::random_lists::random_list;
use crate::random_reach::random_reach_case;

pub fn random_case(random: &mut Random) -> Case {
    match random.below(100) {
        0..30 => random_file_case(random),
        30..36 => random_reach_case(random),
        36..47 => random_fabric_call(random, Call::Start),
        47..59 => random_fabric_call(random, Call::Step),
        59..71 => random_fabric_call(random, Call::Run),
        71..83 => random_fabric_call(random, Call::Check),
        83..93 => random_ceiling_case(random),
        93..98 => random_check_many_case(random),
        _ => random_list(random),
    }
}

fn random_file_case(random: &mut Random) -> Case {
    let (call, input, exact_space) = if random.percent(50) {
        let file = random_file(random);
        let space = file.len() / RECORD * ROW;
        (Call::Unpack, file, space)
    } else {
        let (call, table) = random_table(random);
        let space = file_length(table.len() / ROW);
        (call, table, space)
    };
    let result = random_memory(random, exact_space);
    Case {
        by_other_calls: random.percent(15),
        ..one_call(random, call, [input, Vec::new(), Vec::new(), result])
    }
}

/// A case of one call with its four parts of memory.
pub fn one_call(random: &mut Random, call: Call, parts: [Vec<u8>; 4]) -> Case {
    let [fabric, state, given, result] = parts.map(|bytes| lent(random, bytes));
    Case {
        fabric,
        state,
        calls: vec![LentCall {
            call,
            given,
            result,
            expected: Expected::Nothing,
        }],
        by_other_calls: false,
    }
}

pub fn lent(random: &mut Random, bytes: Vec<u8>) -> Lent {
    let guard = match random.below(4) {
        0 => Guard::Before,
        1 => Guard::BehindOrNull,
        _ => Guard::Behind,
    };
    Lent { bytes, guard }
}

/// Memory of any content that is as long as the result, or longer, or short.
pub fn random_memory(random: &mut Random, exact: usize) -> Vec<u8> {
    let space = match random.below(100) {
        0..55 => exact,
        55..70 => exact + random.between(1, 100),
        70..85 => exact.saturating_sub(1),
        85..92 => 0,
        _ => random.between(0, exact),
    };
    random.bytes(space)
}

//! Random cases of one call to start, step, run or check.

use reference::check::weights_length;
use reference::random::Random;
use reference::random_proposal::Equations;
use reference::state::COMPONENT_STATE;

use crate::case::{Call, Case};
use crate::damaged_choices::good_or_damaged_choices;
use crate::damaged_proposal::random_proposal;
use crate::damaged_state::good_or_damaged_state;
use crate::random_cases::{one_call, random_memory};
use crate::random_fabrics::{file_or_damaged, good_fabric};

/// The memory that a call needs beside its fabric is made for a good fabric; the file is most
/// often that fabric's.
pub fn random_fabric_call(random: &mut Random, call: Call) -> Case {
    let fabric = good_fabric(random);
    let file = file_or_damaged(random, &fabric);
    let none = Vec::new;
    let [state, given, result] = match call {
        Call::Start => {
            let space = COMPONENT_STATE * fabric.components.len();
            [random_memory(random, space), none(), none()]
        }
        Call::Step => [
            good_or_damaged_state(random, &fabric),
            good_or_damaged_choices(random, &fabric, 1),
            random_memory(random, fabric.channels),
        ],
        Call::Run => {
            let steps = random_step_count(random);
            [
                good_or_damaged_state(random, &fabric),
                good_or_damaged_choices(random, &fabric, steps),
                none(),
            ]
        }
        _ => [
            none(),
            random_proposal(random, &Equations::of(&fabric)),
            random_memory(random, weights_length(fabric.components.len())),
        ],
    };
    one_call(random, call, [file, state, given, result])
}

pub fn random_step_count(random: &mut Random) -> usize {
    random.pick(&[0, 1, 2, 3, 8, 20])
}

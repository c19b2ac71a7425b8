//! Random calls to check_many.

use reference::check_many::result_length;
use reference::random::Random;
use reference::random_proposal::Equations;
use reference::Fabric;

use crate::case::{Call, Case};
use crate::damaged_blocks::random_block_file;
use crate::random_cases::{one_call, random_memory};
use crate::random_fabrics::{file_or_damaged, good_fabric};

pub fn random_check_many_case(random: &mut Random) -> Case {
    let fabric = good_fabric(random);
    let file = file_or_damaged(random, &fabric);
    let (blocks, results) = blocks_and_results(random, &fabric, &Equations::of(&fabric));
    Case {
        by_other_calls: random.percent(10),
        ..one_call(random, Call::CheckMany, [file, Vec::new(), blocks, results])
    }
}

/// A file of blocks, and memory for their results.
pub fn blocks_and_results(
    random: &mut Random,
    fabric: &Fabric,
    equations: &Equations,
) -> (Vec<u8>, Vec<u8>) {
    let (blocks, count) = random_block_file(random, equations);
    let space = count * result_length(fabric.components.len());
    (blocks, random_memory(random, space))
}

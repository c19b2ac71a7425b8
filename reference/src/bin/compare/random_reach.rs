//! Random calls to reach.

use reference::random::Random;

use crate::case::{Call, Case};
use crate::random_cases::{one_call, random_memory};
use crate::random_fabrics::{file_or_damaged, good_fabric};

pub fn random_reach_case(random: &mut Random) -> Case {
    let fabric = good_fabric(random);
    let file = file_or_damaged(random, &fabric);
    let sets = random_memory(random, fabric.channels);
    one_call(random, Call::Reach, [file, Vec::new(), Vec::new(), sets])
}

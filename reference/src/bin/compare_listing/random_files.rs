//! Random files: a fabric with a proposal made for it, each good or damaged.

use reference::random::Random;
use reference::random_proposal::Equations;

use crate::damaged_proposal::random_proposal;
use crate::files::{Content, Files};
use crate::random_fabrics::{file_or_damaged, good_fabric};

pub fn random_files(random: &mut Random) -> Files {
    let fabric = good_fabric(random);
    let proof = random_proposal(random, &Equations::of(&fabric));
    let file = if random.percent(80) {
        fabric.to_file()
    } else {
        file_or_damaged(random, &fabric)
    };
    Files {
        fabric: there_or_missing(random, file),
        proof: there_or_missing(random, proof),
    }
}

fn there_or_missing(random: &mut Random, bytes: Vec<u8>) -> Content {
    if random.percent(2) {
        Content::Missing
    } else {
        Content::Bytes(bytes)
    }
}

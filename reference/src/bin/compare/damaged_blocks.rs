//! Random files of blocks: good ones, and such as have too many blocks, too many terms in a block,
//! another count than terms, or another length.

use reference::blocks::{write_blocks, MOST_BLOCKS};
use reference::random::Random;
use reference::random_proposal::Equations;
use reference::terms::{Term, MOST_TERMS, TERM};

use crate::damaged_proposal::random_terms;

/// How many blocks are drawn; further ones repeat them.
const DRAWN: usize = 6;

/// The file, and how many blocks it is made of.
pub fn random_block_file(random: &mut Random, equations: &Equations) -> (Vec<u8>, usize) {
    let count = match random.below(100) {
        0..5 => 0,
        5..85 => random.between(1, 6),
        85..92 => random.between(7, MOST_BLOCKS - 1),
        92..96 => MOST_BLOCKS,
        _ => MOST_BLOCKS + random.pick(&[1, 1, 2, 5]),
    };
    let mut blocks = random_blocks(random, equations, count);
    if count > 0 && random.percent(3) {
        lengthen(random, &mut blocks);
    }
    let mut file = write_blocks(&blocks);
    if random.percent(15) {
        damage(random, &mut file, &blocks);
    }
    (file, count)
}

/// So many blocks, accepted and refused ones mixed.
pub fn random_blocks(random: &mut Random, equations: &Equations, count: usize) -> Vec<Vec<Term>> {
    let drawn = count.min(DRAWN);
    let mut blocks: Vec<_> = (0..drawn)
        .map(|_| random_terms(random, equations))
        .collect();
    while blocks.len() < count {
        let copy = blocks[random.below(drawn)].clone();
        blocks.push(copy);
    }
    blocks
}

/// Gives one block more terms than there may be.
fn lengthen(random: &mut Random, blocks: &mut [Vec<Term>]) {
    let place = random.below(blocks.len());
    let idle = Term {
        component: 0,
        index: 0,
        multiplier: 0,
    };
    let length = random.pick(&[MOST_TERMS + 1, MOST_TERMS + 1, 2 * MOST_TERMS, 0xFFFF]);
    blocks[place].resize(length, idle);
}

fn damage(random: &mut Random, file: &mut Vec<u8>, blocks: &[Vec<Term>]) {
    let len = file.len();
    match random.below(6) {
        0..3 if !blocks.is_empty() => damage_count(random, file, blocks),
        3 => file.push(random.byte()),
        4 => file.truncate(len.saturating_sub(1)),
        _ => file.resize(random.between(0, len + TERM), 0),
    }
}

/// Gives one block another count, often the right one with its bytes swapped.
fn damage_count(random: &mut Random, file: &mut [u8], blocks: &[Vec<Term>]) {
    let place = random.below(blocks.len());
    let start = write_blocks(&blocks[..place]).len();
    let count = blocks[place].len() as u16;
    let changed = match random.below(4) {
        0 => count.swap_bytes(),
        1 => count.wrapping_add(1),
        2 => count.wrapping_sub(1),
        _ => random.pick(&[0, MOST_TERMS as u16, MOST_TERMS as u16 + 1, 0xFFFF]),
    };
    file[start..][..2].copy_from_slice(&changed.to_be_bytes());
}

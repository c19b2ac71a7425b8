//! A file of many proposals: blocks, each a 16-bit count of terms, high byte first, and its terms.

use crate::refusal::Refusal;
use crate::terms::{write_proposal, Term, MOST_TERMS, TERM};

pub const MOST_BLOCKS: usize = 64;

/// The terms of each block, in file order. Refusal 33.
pub fn read_blocks(proposals: &[u8]) -> Result<Vec<&[u8]>, Refusal> {
    let mut blocks = Vec::new();
    let mut rest = proposals;
    while !rest.is_empty() {
        let (terms, behind) = first_block(rest).ok_or(Refusal::BadBlocks)?;
        blocks.push(terms);
        rest = behind;
    }
    if blocks.len() > MOST_BLOCKS {
        return Err(Refusal::BadBlocks);
    }
    Ok(blocks)
}

/// The terms of the first block and what comes behind them. `None` if the count is too large or the
/// file ends within the block.
fn first_block(bytes: &[u8]) -> Option<(&[u8], &[u8])> {
    let (count, rest) = bytes.split_first_chunk()?;
    let count = usize::from(u16::from_be_bytes(*count));
    if count > MOST_TERMS {
        return None;
    }
    rest.split_at_checked(TERM * count)
}

/// Each count fits 16 bits.
pub fn write_blocks(blocks: &[Vec<Term>]) -> Vec<u8> {
    let with_count = |terms: &Vec<Term>| {
        let count = (terms.len() as u16).to_be_bytes();
        [&count[..], &write_proposal(terms)].concat()
    };
    blocks.iter().flat_map(with_count).collect()
}

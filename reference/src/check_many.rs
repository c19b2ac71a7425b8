//! The check of many proposals for one fabric.

use crate::blocks::read_blocks;
use crate::check::{judged, Sum};
use crate::component::MOST_COLOURS;
use crate::entries::{write_entries, ENTRY};
use crate::fabric::Fabric;
use crate::packed::read_file;
use crate::refusal::{number_and_place, Refusal};

/// How many bytes the result of a block takes: number, place, K and weights.
pub fn result_length(components: usize) -> usize {
    ENTRY * (3 + MOST_COLOURS * components)
}

/// Writes the result of each block, in file order. Refusals 1 to 8, 33 and 23, in this order.
pub fn check_many(file: &[u8], proposals: &[u8], results: &mut [u8]) -> Result<(), Refusal> {
    let fabric = read_file(file)?;
    let blocks = read_blocks(proposals)?;
    let length = result_length(fabric.components.len());
    let results = results
        .get_mut(..length * blocks.len())
        .ok_or(Refusal::ResultSpace)?;
    for (result, terms) in results.chunks_exact_mut(length).zip(blocks) {
        write_entries(result, &result_of(&fabric, terms));
    }
    Ok(())
}

/// The K and the weights of a refused block are 0.
fn result_of(fabric: &Fabric, terms: &[u8]) -> Vec<i64> {
    let verdict = judged(fabric, terms);
    let (number, place) = number_and_place(&verdict);
    let sum = verdict.unwrap_or_else(|_| Sum {
        weights: vec![0; MOST_COLOURS * fabric.components.len()],
        constant: 0,
    });
    let mut entries = vec![i64::from(number), place as i64, sum.constant];
    entries.extend(sum.weights);
    entries
}

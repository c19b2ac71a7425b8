//! The ceiling for a place: one number for a queue and a colour.

use crate::check::{judged, Sum};
use crate::component::{Kind, MOST_COLOURS};
use crate::fabric::Fabric;
use crate::packed::read_file;
use crate::refusal::Refusal;

/// No run from start puts more of the colour into the queue. Refusals 1 to 8, 11 to 14, 31 and 32,
/// in this order.
pub fn ceiling(file: &[u8], proposal: &[u8], queue: u64, colour: u64) -> Result<u64, Refusal> {
    let fabric = read_file(file)?;
    let sum = judged(&fabric, proposal)?;
    let (q, d) = place(&fabric, queue, colour).ok_or(Refusal::NotAQueue)?;
    let weight = sum.weights[MOST_COLOURS * q + d];
    if weight <= 0 {
        return Err(Refusal::WeightNotPositive);
    }
    // What is divided is never below 0, so that this rounds down.
    let quotient = (sum.constant + sum.most_below_0(&fabric)) / weight;
    Ok(quotient.min(capacity(&fabric, q)) as u64)
}

/// A queue of the fabric and a colour below C, or `None`.
fn place(fabric: &Fabric, queue: u64, colour: u64) -> Option<(usize, usize)> {
    let (q, d) = (usize::try_from(queue).ok()?, usize::try_from(colour).ok()?);
    let is_queue = fabric.components.get(q)?.kind == Kind::Queue;
    (is_queue && d < fabric.colours).then_some((q, d))
}

fn capacity(fabric: &Fabric, q: usize) -> i64 {
    i64::from(fabric.components[q].capacity)
}

impl Sum {
    /// The queue and colour of each weight above 0.
    pub fn places_above_0(&self) -> impl Iterator<Item = (u64, u64)> + '_ {
        let above_0 = self.entries().filter(|&(_, _, weight)| weight > 0);
        above_0.map(|(q, d, _)| (q as u64, d as u64))
    }

    /// Each weight below 0, sign dropped, times its queue's capacity, added up.
    fn most_below_0(&self, fabric: &Fabric) -> i64 {
        let below_0 = self.entries().filter(|&(_, _, weight)| weight < 0);
        below_0
            .map(|(q, _, weight)| -weight * capacity(fabric, q))
            .sum()
    }
}

//! The text that the listing program prints.

use std::fmt::Write;

use crate::check::{accepted_sum, Sum};

const FABRIC_READ: usize = 1669;
const PROOF_READ: usize = 16385;

/// The text for the content of `fabric.bin` and of `proof.bin`, empty for a missing file.
pub fn listing(fabric: &[u8], proof: &[u8]) -> String {
    let fabric = &fabric[..fabric.len().min(FABRIC_READ)];
    let proof = &proof[..proof.len().min(PROOF_READ)];
    match accepted_sum(fabric, proof) {
        Err(refusal) => format!("NO {} {}\n", refusal.number(), refusal.place()),
        Ok(sum) => sum.listing(),
    }
}

impl Sum {
    pub fn listing(&self) -> String {
        let mut text = String::new();
        for (component, colour, weight) in self.entries().filter(|&(_, _, weight)| weight != 0) {
            writeln!(text, "Q {component} {colour} {weight}").expect("a string takes all");
        }
        text + &format!("SUM {}\n", self.constant)
    }
}

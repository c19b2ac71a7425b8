//! The terms of a proposal: 4 bytes each, most significant bit first.

use crate::refusal::Refusal;

pub const TERM: usize = 4;
pub const MOST_TERMS: usize = 4096;

/// A multiplier is from minus this to one below it.
pub const MULTIPLIER_BOUND: i64 = 1 << 20;

pub fn fits(multiplier: i64) -> bool {
    (-MULTIPLIER_BOUND..MULTIPLIER_BOUND).contains(&multiplier)
}

#[derive(Clone, Copy, PartialEq, Eq, Debug)]
pub struct Term {
    pub component: usize,
    pub index: usize,
    pub multiplier: i64,
}

impl Term {
    fn read(bytes: &[u8; TERM]) -> Term {
        let bits = u32::from_be_bytes(*bytes);
        Term {
            component: (bits >> 25) as usize,
            index: (bits >> 21 & 0xF) as usize,
            multiplier: i64::from((bits << 11) as i32 >> 11),
        }
    }

    /// Each number fits its field.
    pub fn write(self) -> [u8; TERM] {
        let multiplier = self.multiplier as u32 & 0x1F_FFFF;
        let bits = (self.component as u32) << 25 | (self.index as u32) << 21 | multiplier;
        bits.to_be_bytes()
    }
}

/// Refusal 11.
pub fn read_proposal(proposal: &[u8]) -> Result<impl Iterator<Item = Term> + '_, Refusal> {
    match proposal.as_chunks() {
        (terms, []) if terms.len() <= MOST_TERMS => Ok(terms.iter().map(Term::read)),
        _ => Err(Refusal::ProposalLength),
    }
}

pub fn write_proposal(terms: &[Term]) -> Vec<u8> {
    terms.iter().flat_map(|term| term.write()).collect()
}

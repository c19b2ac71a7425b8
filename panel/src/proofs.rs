//! The sums of a panel's folder that the library accepts.

use std::fmt::Display;
use std::path::Path;

use crate::calls::{self, Checked, Refused};
use crate::failure::Failure;
use crate::files::{self, PROOF, PROOFS};
use crate::opened::Opened;
use crate::words;

/// The proposal in proof.bin.
pub fn proof(folder: &Path) -> Result<Vec<u8>, Failure> {
    let path = folder.join(PROOF);
    let not_there = || {
        let path = path.display();
        Failure::Input(format!("{path} is not there; 'panel propose' finds sums"))
    };
    files::read_if_there(&path)?.ok_or_else(not_there)
}

/// The sum of a proposal that is from somewhere.
pub fn checked(opened: &Opened, proposal: &[u8], from: &impl Display) -> Result<Checked, Failure> {
    let checked = calls::check(&opened.file, proposal);
    checked.map_err(|refused| refusal(refused, opened, proposal, from))
}

pub fn refusal(refused: Refused, opened: &Opened, proposal: &[u8], from: &impl Display) -> Failure {
    let words = words::proposal::of_proposal(refused, proposal, &opened.netlist);
    Failure::Refused(format!("{from}: {words}"))
}

/// What the proposals of a folder come to for its fabric.
#[derive(Default)]
pub struct Sums {
    /// Each once.
    pub accepted: Vec<Checked>,
    pub refused: usize,
}

/// Those of proof.bin, then of the blocks of proofs.bin; a file that is not there has none.
pub fn sums(folder: &Path, fabric: &[u8]) -> Result<Sums, Failure> {
    let mut sums = Sums::default();
    let mut add = |checked: Result<Checked, Refused>| match checked {
        Ok(sum) if sums.accepted.contains(&sum) => {}
        Ok(sum) => sums.accepted.push(sum),
        Err(_) => sums.refused += 1,
    };
    if let Some(proposal) = files::read_if_there(&folder.join(PROOF))? {
        add(calls::check(fabric, &proposal));
    }
    let path = folder.join(PROOFS);
    if let Some(proposals) = files::read_if_there(&path)? {
        let results = calls::check_many(fabric, &proposals).map_err(|refused| {
            let words = words::proposal::of_file(refused);
            Failure::Refused(format!("{}: {words}", path.display()))
        })?;
        results.into_iter().for_each(add);
    }
    Ok(sums)
}

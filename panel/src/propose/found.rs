//! The sums that a fabric has.

use std::path::Path;

use reference::blocks::{write_blocks, MOST_BLOCKS};
use reference::netlist::counted;
use reference::sum_basis::{sum_basis, SumBasis};
use reference::terms::{write_proposal, Term};
use reference::{Fabric, Kind};

use crate::calls;
use crate::failure::Failure;
use crate::files::{self, PROOF, PROOFS};
use crate::opened::Opened;
use crate::output::print;
use crate::words::proposal::of_proposal;

/// Prints all, and writes that with the number, from 1, to proof.bin.
pub fn propose(folder: &Path, opened: &Opened, number: usize) -> Result<(), Failure> {
    let basis = sum_basis(&opened.netlist.fabric);
    let lines = checked_lines(opened, &basis.sums)?;
    if basis.sums.is_empty() {
        let why = why_none(&opened.netlist.fabric, &basis);
        return Err(Failure::Refused(format!("{why}; nothing is written")));
    }
    let SumBasis { sums, left_out, .. } = basis;
    let terms = sums.get(number - 1).ok_or_else(|| {
        let found = counted(sums.len(), "sum");
        Failure::Input(format!("there is no sum {number}: {found} found"))
    })?;
    print(&(lines + "\n"))?;
    write(folder, number, terms, &sums)?;
    match left_out {
        0 => Ok(()),
        count => print(&format!("left out: {}\n", too_large(count))),
    }
}

/// A line for each, as the library accepted it. It accepts all, unless the equations that they were
/// found by are not its own.
fn checked_lines(opened: &Opened, sums: &[Vec<Term>]) -> Result<String, Failure> {
    let mut lines = String::new();
    for terms in sums {
        let proposal = write_proposal(terms);
        let checked = calls::check(&opened.file, &proposal).map_err(|refused| {
            let words = of_proposal(refused, &proposal, &opened.netlist);
            Failure::Differ(format!("the library refuses a sum that was found: {words}"))
        })?;
        lines += &(checked.equation(&opened.netlist) + "\n");
    }
    Ok(lines)
}

/// proof.bin and proofs.bin, which has as many sums as it can have.
fn write(folder: &Path, number: usize, one: &[Term], all: &[Vec<Term>]) -> Result<(), Failure> {
    let (proof, proofs) = (folder.join(PROOF), folder.join(PROOFS));
    let first = &all[..all.len().min(MOST_BLOCKS)];
    files::write_all(&[
        (&proof, &write_proposal(one)),
        (&proofs, &write_blocks(first)),
    ])?;
    let (terms, sums) = (counted(one.len(), "term"), counted(all.len(), "sum"));
    let which = match all.len() > MOST_BLOCKS {
        true => format!("the first {MOST_BLOCKS} of {sums}, the most that it can have"),
        false => sums,
    };
    let (proof, proofs) = (proof.display(), proofs.display());
    print(&format!(
        "written: {proof} with sum {number}, {terms}\nwritten: {proofs} with {which}\n"
    ))
}

fn why_none(fabric: &Fabric, basis: &SumBasis) -> String {
    if !fabric.components.iter().any(|it| it.kind == Kind::Queue) {
        return "there is no sum, since there is no queue".to_string();
    }
    match (basis.left_out, basis.never_queued) {
        (0, 0) => "there is no sum that the equations show".to_string(),
        (0, _) => "there is no sum but that some colours never come to a queue, \
                   as 'panel reach' shows"
            .to_string(),
        (count, _) => format!("there is no sum but {}", too_large(count)),
    }
}

/// `1 that takes ..`, `2 that take ..`
fn too_large(count: usize) -> String {
    let take = if count == 1 { "takes" } else { "take" };
    format!("{count} that {take} multipliers of more than 21 bits")
}

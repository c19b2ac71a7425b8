//! panel check: what fabric.bin and proof.bin show.

use std::path::Path;

use reference::netlist::counted;

use crate::arguments::{asks_for_help, folder};
use crate::calls::{self, Checked};
use crate::failure::Failure;
use crate::files::{FABRIC, PROOF, PROOFS};
use crate::opened::{open, Opened};
use crate::output::print;
use crate::proofs;

const HELP: &str = "\
panel check [FOLDER]

Has the library check FOLDER's proof.bin (by default the current folder's) for
its fabric.bin, and prints the sum that it shows never to change:

    messages + credits = 2

Under it stands the most that a queue with a weight above 0 can ever hold, by
that sum. If there is a proofs.bin, the sums that it shows follow. A refused
proof.bin is explained by the names of fabric.names, and with the number and
place of the refusal as docs/FORMAT.md has them.

Exit code: 0 accepted, 1 refused, 2 a file cannot be read.
";

pub fn command(words: &[String]) -> Result<(), Failure> {
    if asks_for_help(words) {
        return print(HELP);
    }
    check(&folder(words, "check")?)
}

fn check(folder: &Path) -> Result<(), Failure> {
    let opened = open(&folder.join(FABRIC))?;
    let proof = folder.join(PROOF);
    let proposal = proofs::proof(folder)?;
    let checked = proofs::checked(&opened, &proposal, &proof.display())?;
    let mut text = checked.equation(&opened.netlist) + "\n";
    text += &ceilings(&opened, &proposal, &checked)?;
    print(&text)?;
    print(&others(folder, &opened, &checked)?)
}

/// A line for each queue and colour with a weight above 0.
fn ceilings(opened: &Opened, proposal: &[u8], checked: &Checked) -> Result<String, Failure> {
    let (fabric, names) = (&opened.netlist.fabric, &opened.netlist.names);
    let mut text = String::new();
    for (queue, weights) in checked.by_queue(&opened.netlist) {
        let name = &names.components[queue];
        let capacity = fabric.components[queue].capacity;
        let above_0 = weights
            .iter()
            .enumerate()
            .filter(|(_, weight)| **weight > 0);
        for (colour, _) in above_0 {
            let name = match weights.len() {
                1 => name.clone(),
                _ => format!("{name}.{}", names.colours[colour]),
            };
            let ceiling = calls::ceiling(&opened.file, proposal, queue, colour);
            let ceiling = ceiling.map_err(|refused| {
                let number = refused.number;
                Failure::Refused(format!("the ceiling of {name} is refused ({number})"))
            })?;
            text += &format!("  {name}: at most {ceiling}, capacity {capacity}\n");
        }
    }
    Ok(text)
}

/// The sums of proofs.bin but for that of proof.bin.
fn others(folder: &Path, opened: &Opened, checked: &Checked) -> Result<String, Failure> {
    let sums = proofs::sums(folder, &opened.file)?;
    let others = sums.accepted.iter().filter(|sum| *sum != checked);
    let lines: Vec<String> = others.map(|sum| sum.equation(&opened.netlist)).collect();
    let path = folder.join(PROOFS);
    let path = path.display();
    let mut text = String::new();
    if !lines.is_empty() {
        text += &format!("\nby {path} also:\n{}\n", lines.join("\n"));
    }
    if sums.refused > 0 {
        text += &format!("\nrefused in {path}: {}\n", counted(sums.refused, "sum"));
    }
    Ok(text)
}

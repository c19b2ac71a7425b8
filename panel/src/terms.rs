//! panel terms: proof.bin as text.

use std::path::Path;

use reference::netlist::{padded, Netlist};
use reference::proposal_text::write_term;
use reference::terms::{read_proposal, Term};

use crate::arguments::{asks_for_help, folder};
use crate::calls;
use crate::failure::Failure;
use crate::files::{FABRIC, PROOF};
use crate::opened::open;
use crate::output::print;
use crate::proofs;
use crate::words::equations::equation_in_words;

const HELP: &str = "\
panel terms [FOLDER]

Prints the proposal in FOLDER's proof.bin (by default the current folder's), a
term a line, each with its equation in words:

    1 * gate.8  # all on wanted - all on credit = 0

which says that as many packets have moved on channel wanted as on credit since
start. 'panel propose --from' takes the text and writes the same proof.bin.

Exit code: 0 printed, 1 refused by the library (a term without an equation, for
one), 2 a file cannot be read.
";

pub fn command(words: &[String]) -> Result<(), Failure> {
    if asks_for_help(words) {
        return print(HELP);
    }
    terms(&folder(words, "terms")?)
}

fn terms(folder: &Path) -> Result<(), Failure> {
    let opened = open(&folder.join(FABRIC))?;
    let proposal = proofs::proof(folder)?;
    match calls::check(&opened.file, &proposal) {
        // Only then there are terms without an equation, or no terms.
        Err(refused) if [11, 12].contains(&refused.number) => {
            let from = folder.join(PROOF);
            Err(proofs::refusal(
                refused,
                &opened,
                &proposal,
                &from.display(),
            ))
        }
        _ => print(&text(&opened.netlist, &proposal)),
    }
}

fn text(netlist: &Netlist, proposal: &[u8]) -> String {
    let terms = read_proposal(proposal).into_iter().flatten();
    let lines: Vec<(String, String)> = terms.map(|term| line(netlist, &term)).collect();
    let width = lines.iter().map(|(term, _)| term.len()).max().unwrap_or(0);
    let lines = lines
        .iter()
        .map(|(term, equation)| format!("{}  # {equation}\n", padded(term, width)));
    lines.collect()
}

/// The term, and its equation in words.
fn line(netlist: &Netlist, term: &Term) -> (String, String) {
    let equation = equation_in_words(netlist, term.component, term.index);
    let text = write_term(term, &netlist.names.components);
    (text, equation.unwrap_or_default())
}

//! A proposal that somebody wrote.

use std::path::Path;

use reference::netlist::counted;
use reference::proposal_text;
use reference::terms::write_proposal;

use crate::failure::Failure;
use crate::files::{self, PROOF};
use crate::opened::Opened;
use crate::output::print;
use crate::proofs;
use crate::text_source::TextSource;

pub fn propose(folder: &Path, opened: &Opened, source: &TextSource) -> Result<(), Failure> {
    let text = source.read()?;
    let components = &opened.netlist.names.components;
    let terms = proposal_text::read(&text, components)
        .map_err(|error| Failure::Input(format!("{source}:{}: {}", error.line, error.message)))?;
    let proposal = write_proposal(&terms);
    let checked = proofs::checked(opened, &proposal, source)?;
    print(&format!("{}\n\n", checked.equation(&opened.netlist)))?;
    let path = folder.join(PROOF);
    files::write(&path, &proposal)?;
    let count = counted(terms.len(), "term");
    print(&format!("written: {} with {count}\n", path.display()))
}

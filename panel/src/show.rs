//! panel show: a packed fabric as a netlist.

use std::path::Path;

use reference::netlist;

use crate::arguments::{asks_for_help, only_word};
use crate::failure::Failure;
use crate::opened;
use crate::output::print;

const HELP: &str = "\
panel show FILE

Prints the packed fabric in FILE as a text netlist, from which 'panel pack'
makes the same file again. The names are those in the .names file that 'panel
pack' left beside FILE; without one, components and channels are called by
number.

Exit code: 0 printed, 1 refused, 2 FILE cannot be read.
";

pub fn command(words: &[String]) -> Result<(), Failure> {
    if asks_for_help(words) {
        return print(HELP);
    }
    let file = only_word(words, "show", "FILE")?;
    let opened = opened::open(Path::new(&file))?;
    print(&netlist::write(&opened.netlist))
}

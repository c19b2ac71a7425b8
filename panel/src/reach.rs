//! panel reach: the colours that can reach each channel.

use std::path::Path;

use reference::netlist::{padded, Names};

use crate::arguments::{asks_for_help, folder};
use crate::calls;
use crate::failure::Failure;
use crate::files::FABRIC;
use crate::opened::open;
use crate::output::print;
use crate::words::number_and_place;

const HELP: &str = "\
panel reach [FOLDER]

Prints, for each channel of FOLDER's fabric.bin (by default the current
folder's), the colours that can reach it, as the library lists them, and '-' if
there are none:

    wanted  alarm fault
    credit  token

No run from start moves another colour there. A colour that is printed need not
ever come. The flows of these colours are the ones that have to cancel in a sum.

Exit code: 0 printed, 1 refused, 2 a file cannot be read.
";

pub fn command(words: &[String]) -> Result<(), Failure> {
    if asks_for_help(words) {
        return print(HELP);
    }
    reach(&folder(words, "reach")?)
}

fn reach(folder: &Path) -> Result<(), Failure> {
    let path = folder.join(FABRIC);
    let opened = open(&path)?;
    let sets = calls::reach(&opened.file).map_err(|refused| {
        let number = number_and_place(refused);
        Failure::Refused(format!("{}: reach is refused {number}", path.display()))
    })?;
    print(&text(&opened.netlist.names, &sets))
}

/// A line a channel.
fn text(names: &Names, sets: &[u8]) -> String {
    let width = names.channels.iter().map(String::len).max().unwrap_or(0);
    let lines = names.channels.iter().zip(sets);
    let lines = lines.map(|(channel, &set)| {
        let colours = colours(names, set);
        format!("{}  {colours}\n", padded(channel, width))
    });
    lines.collect()
}

fn colours(names: &Names, set: u8) -> String {
    let all = names.colours.iter().enumerate();
    let members = all.filter(|(d, _)| 0x80 >> d & set != 0);
    let members: Vec<&str> = members.map(|(_, name)| name.as_str()).collect();
    match members.is_empty() {
        true => "-".to_string(),
        false => members.join(" "),
    }
}

//! An accepted fabric file, with names.

use std::path::Path;

use reference::netlist::{self, Names, Netlist};

use crate::calls;
use crate::failure::Failure;
use crate::files;
use crate::words;

pub struct Opened {
    pub file: Vec<u8>,
    pub netlist: Netlist,
}

/// Reads a fabric file, and its names if a netlist beside it has them: `fabric.names` for
/// `fabric.bin`. A netlist that packs to another file has no say.
pub fn open(path: &Path) -> Result<Opened, Failure> {
    let file = files::read(path)?;
    let fabric = calls::unpack(&file).map_err(|refused| {
        let words = words::fabric::of_file(refused, &file);
        Failure::Refused(format!("{}: {words}", path.display()))
    })?;
    let names = names_beside(path, &file)?.unwrap_or_else(|| Names::numbered(&fabric));
    Ok(Opened {
        file,
        netlist: Netlist { fabric, names },
    })
}

fn names_beside(path: &Path, file: &[u8]) -> Result<Option<Names>, Failure> {
    let beside = files::names_of(path);
    let Some(text) = files::read_if_there(&beside)? else {
        return Ok(None);
    };
    let text = String::from_utf8_lossy(&text);
    let read = netlist::read(&text).ok();
    let same =
        read.filter(|netlist| calls::pack(&netlist.fabric).is_ok_and(|packed| packed == file));
    if same.is_none() {
        let (beside, path) = (beside.display(), path.display());
        eprintln!("panel: {beside} is not the netlist of {path}: its names are left out");
    }
    Ok(same.map(|netlist| netlist.names))
}

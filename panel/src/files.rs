//! Files of a panel's folder: read whole, and written beside and renamed, so that none is ever half
//! written.

use std::fmt::Display;
use std::fs::{self, File};
use std::io::ErrorKind;
use std::path::{Path, PathBuf};

use crate::failure::Failure;
use crate::part::{failed, Part};

pub const FABRIC: &str = "fabric.bin";
pub const PROOF: &str = "proof.bin";

/// How the name of a file of names ends.
pub const NAMES: &str = "names";

/// All sums that were found, a block each.
pub const PROOFS: &str = "proofs.bin";

/// Some editors begin a text with it.
pub const BYTE_ORDER_MARK: char = '\u{FEFF}';

pub fn read(path: &Path) -> Result<Vec<u8>, Failure> {
    fs::read(path).map_err(|error| failed(path, &error))
}

pub fn open(path: &Path) -> Result<File, Failure> {
    File::open(path).map_err(|error| failed(path, &error))
}

/// `None` if there is no such file.
pub fn read_if_there(path: &Path) -> Result<Option<Vec<u8>>, Failure> {
    match fs::read(path) {
        Ok(bytes) => Ok(Some(bytes)),
        Err(error) if error.kind() == ErrorKind::NotFound => Ok(None),
        Err(error) => Err(failed(path, &error)),
    }
}

pub fn read_text(path: &Path) -> Result<String, Failure> {
    text_of(read(path)?, &path.display())
}

pub fn text_of(bytes: Vec<u8>, said_in: &dyn Display) -> Result<String, Failure> {
    let text = String::from_utf8(bytes).map_err(|error| {
        let good = &error.as_bytes()[..error.utf8_error().valid_up_to()];
        let line = 1 + good.iter().filter(|byte| **byte == b'\n').count();
        Failure::Input(format!("{said_in}:{line}: this is no text in UTF-8"))
    })?;
    Ok(match text.strip_prefix(BYTE_ORDER_MARK) {
        Some(text) => text.to_string(),
        None => text,
    })
}

pub fn write(path: &Path, bytes: &[u8]) -> Result<(), Failure> {
    write_all(&[(path, bytes)])
}

/// All are written beside before the first is renamed.
pub fn write_all(files: &[(&Path, &[u8])]) -> Result<(), Failure> {
    let mut parts = Vec::new();
    for (path, bytes) in files {
        parts.push(Part::write(path, bytes)?);
    }
    parts.into_iter().try_for_each(Part::rename)
}

/// The netlist with the names of a fabric file.
pub fn names_of(fabric: &Path) -> PathBuf {
    fabric.with_extension(NAMES)
}

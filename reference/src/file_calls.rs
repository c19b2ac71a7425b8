//! The calls on files: unpack and pack. A refused call writes nothing.

use crate::open_table::{read_table, write_table, ROW};
use crate::packed::{file_length, read_file, write_file};
use crate::refusal::Refusal;

/// The numbers that an accepted unpack hands back.
#[derive(Clone, Copy, PartialEq, Eq, Debug)]
pub struct Unpacked {
    pub colours: u64,
    pub channels: u64,
}

/// Writes the open table of a packed fabric.
pub fn unpack(file: &[u8], table: &mut [u8]) -> Result<Unpacked, Refusal> {
    let fabric = read_file(file)?;
    let rows = table
        .get_mut(..ROW * fabric.components.len())
        .ok_or(Refusal::ResultSpace)?;
    write_table(&fabric, rows);
    Ok(Unpacked {
        colours: fabric.colours as u64,
        channels: fabric.channels as u64,
    })
}

/// Writes the packed fabric of an open table.
pub fn pack(colours: u64, channels: u64, table: &[u8], file: &mut [u8]) -> Result<(), Refusal> {
    let fabric = read_table(colours, channels, table)?;
    let packed = file
        .get_mut(..file_length(fabric.components.len()))
        .ok_or(Refusal::ResultSpace)?;
    write_file(&fabric, packed);
    Ok(())
}

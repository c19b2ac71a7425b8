//! The calls of the library, with memory of the right size lent to each.

use reference::blocks::{read_blocks, MOST_BLOCKS};
use reference::check::weights_length;
use reference::check_many::result_length;
use reference::fabric::MOST_COMPONENTS;
use reference::library::{
    fabric_ceiling, fabric_ceiling_place, fabric_ceiling_value, fabric_check,
    fabric_check_constant, fabric_check_many, fabric_check_many_place, fabric_check_place,
    fabric_pack, fabric_pack_place, fabric_reach, fabric_reach_place, fabric_start,
    fabric_start_place, fabric_step, fabric_step_place, fabric_unpack, fabric_unpack_channels,
    fabric_unpack_colours, fabric_unpack_place,
};
use reference::open_table::{read_row, ROW};
use reference::packed::file_length;
use reference::state::COMPONENT_STATE;
use reference::Fabric;

/// The library's refusal, by number and place.
#[derive(Clone, Copy, PartialEq, Eq, Debug)]
pub struct Refused {
    pub number: u32,
    pub place: u64,
}

/// What an accepted check wrote and handed back.
#[derive(PartialEq, Eq, Debug)]
pub struct Checked {
    /// Entry 8 q + d is the weight of n(q,d).
    pub weights: Vec<i64>,
    pub constant: i64,
}

fn accepted(number: u32, place: impl FnOnce() -> u64) -> Result<(), Refused> {
    match number {
        0 => Ok(()),
        _ => Err(Refused {
            number,
            place: place(),
        }),
    }
}

pub fn unpack(file: &[u8]) -> Result<Fabric, Refused> {
    let mut table = vec![0; ROW * MOST_COMPONENTS];
    let (from, from_len) = (file.as_ptr(), file.len());
    let number = unsafe { fabric_unpack(from, from_len, table.as_mut_ptr(), table.len()) };
    let (to, to_len) = (table.as_ptr(), table.len());
    accepted(number, || unsafe {
        fabric_unpack_place(from, from_len, to, to_len)
    })?;
    let colours = unsafe { fabric_unpack_colours(from, from_len, to, to_len) } as usize;
    let channels = unsafe { fabric_unpack_channels(from, from_len, to, to_len) } as usize;
    let components = usize::from(file[1]);
    let (rows, _) = table.as_chunks();
    let rows = rows[..components].iter().map(read_row);
    Ok(Fabric {
        colours,
        channels,
        components: rows.collect::<Option<_>>().expect("an accepted kind"),
    })
}

pub fn pack(fabric: &Fabric) -> Result<Vec<u8>, Refused> {
    let table = fabric.to_table();
    let (colours, channels) = (fabric.colours as u64, fabric.channels as u64);
    let (from, from_len) = (table.as_ptr(), table.len());
    let mut file = vec![0; file_length(fabric.components.len())];
    let (to, to_len) = (file.as_mut_ptr(), file.len());
    let number = unsafe { fabric_pack(colours, channels, from, from_len, to, to_len) };
    accepted(number, || unsafe {
        fabric_pack_place(colours, channels, from, from_len, to, to_len)
    })?;
    Ok(file)
}

/// The state at start. The file was accepted by `unpack`.
pub fn start(file: &[u8]) -> Result<Vec<u8>, Refused> {
    let mut state = vec![0; COMPONENT_STATE * usize::from(file[1])];
    let (to, to_len) = (state.as_mut_ptr(), state.len());
    let number = unsafe { fabric_start(file.as_ptr(), file.len(), to, to_len) };
    accepted(number, || unsafe {
        fabric_start_place(file.as_ptr(), file.len(), to, to_len)
    })?;
    Ok(state)
}

/// Takes a step: the state becomes the one after it. Hands back the moves, a byte a channel: 0, or
/// 1 + the colour that moved. The file was accepted by `unpack`.
pub fn step(file: &[u8], state: &mut [u8], choices: &[u8]) -> Result<Vec<u8>, Refused> {
    let mut moves = vec![0; usize::from(file[2])];
    let (fabric, fabric_len) = (file.as_ptr(), file.len());
    let (cells, cells_len) = (state.as_mut_ptr(), state.len());
    let (given, given_len) = (choices.as_ptr(), choices.len());
    let (to, to_len) = (moves.as_mut_ptr(), moves.len());
    let number = unsafe {
        fabric_step(
            fabric, fabric_len, cells, cells_len, given, given_len, to, to_len,
        )
    };
    accepted(number, || unsafe {
        fabric_step_place(
            fabric, fabric_len, cells, cells_len, given, given_len, to, to_len,
        )
    })?;
    Ok(moves)
}

/// The file was accepted by `unpack`.
pub fn check(file: &[u8], proposal: &[u8]) -> Result<Checked, Refused> {
    let mut bytes = vec![0; weights_length(usize::from(file[1]))];
    let (fabric, fabric_len) = (file.as_ptr(), file.len());
    let (given, given_len) = (proposal.as_ptr(), proposal.len());
    let (to, to_len) = (bytes.as_mut_ptr(), bytes.len());
    let number = unsafe { fabric_check(fabric, fabric_len, given, given_len, to, to_len) };
    accepted(number, || unsafe {
        fabric_check_place(fabric, fabric_len, given, given_len, to, to_len)
    })?;
    let constant =
        unsafe { fabric_check_constant(fabric, fabric_len, given, given_len, to, to_len) };
    Ok(Checked {
        weights: entries(&bytes),
        constant,
    })
}

/// What check says of each block of a file of proposals. The file was accepted by `unpack`.
pub fn check_many(file: &[u8], proposals: &[u8]) -> Result<Vec<Result<Checked, Refused>>, Refused> {
    let size = result_length(usize::from(file[1]));
    let mut bytes = vec![0; size * MOST_BLOCKS];
    let (fabric, fabric_len) = (file.as_ptr(), file.len());
    let (given, given_len) = (proposals.as_ptr(), proposals.len());
    let (to, to_len) = (bytes.as_mut_ptr(), bytes.len());
    let number = unsafe { fabric_check_many(fabric, fabric_len, given, given_len, to, to_len) };
    accepted(number, || unsafe {
        fabric_check_many_place(fabric, fabric_len, given, given_len, to, to_len)
    })?;
    let blocks = read_blocks(proposals).expect("an accepted file").len();
    let results = bytes.chunks_exact(size).take(blocks);
    Ok(results
        .map(|result| block_result(&entries(result)))
        .collect())
}

/// Number, place, K and weights.
fn block_result(entries: &[i64]) -> Result<Checked, Refused> {
    accepted(entries[0] as u32, || entries[1] as u64)?;
    Ok(Checked {
        weights: entries[3..].to_vec(),
        constant: entries[2],
    })
}

/// Signed numbers of 8 bytes, lowest first.
fn entries(bytes: &[u8]) -> Vec<i64> {
    let (entries, _) = bytes.as_chunks();
    let number = |entry: &[u8; 8]| i64::from_le_bytes(*entry);
    entries.iter().map(number).collect()
}

/// The most that a queue can hold of a colour.
pub fn ceiling(file: &[u8], proposal: &[u8], queue: usize, colour: usize) -> Result<u64, Refused> {
    let (fabric, fabric_len) = (file.as_ptr(), file.len());
    let (given, given_len) = (proposal.as_ptr(), proposal.len());
    let (queue, colour) = (queue as u64, colour as u64);
    let number = unsafe { fabric_ceiling(fabric, fabric_len, given, given_len, queue, colour) };
    accepted(number, || unsafe {
        fabric_ceiling_place(fabric, fabric_len, given, given_len, queue, colour)
    })?;
    Ok(unsafe { fabric_ceiling_value(fabric, fabric_len, given, given_len, queue, colour) })
}

/// The colours that can reach each channel, a mask byte each, colour 0 the highest bit. The file was
/// accepted by `unpack`.
pub fn reach(file: &[u8]) -> Result<Vec<u8>, Refused> {
    let mut sets = vec![0; usize::from(file[2])];
    let (to, to_len) = (sets.as_mut_ptr(), sets.len());
    let number = unsafe { fabric_reach(file.as_ptr(), file.len(), to, to_len) };
    accepted(number, || unsafe {
        fabric_reach_place(file.as_ptr(), file.len(), to, to_len)
    })?;
    Ok(sets)
}

//! The packed fabric: a header of 4 bytes, then a record of 13 bytes a component.

use crate::component::{Component, Kind};
use crate::fabric::{test_ranges, Fabric};
use crate::refusal::Refusal;

pub const HEADER: usize = 4;
pub const RECORD: usize = 13;
const RECORD_BITS: u32 = 8 * RECORD as u32;
pub const EDITION: u8 = 1;

/// Where it stands in the header.
pub const CHECK_BYTE: usize = 3;

/// Refusals 1 to 8, in this order.
pub fn read_file(file: &[u8]) -> Result<Fabric, Refusal> {
    let [first, components, channels, _, rest @ ..] = file else {
        return Err(Refusal::FileShort);
    };
    if first >> 4 != EDITION || first & 1 != 0 {
        return Err(Refusal::WrongEdition);
    }
    let colours = colours_in(*first);
    test_ranges(
        usize::from(*components),
        u64::from(*channels),
        u64::from(colours),
    )?;
    if rest.len() != RECORD * usize::from(*components) {
        return Err(Refusal::WrongLength);
    }
    if byte_sum(file) != 0 {
        return Err(Refusal::ByteSum);
    }
    let (records, _) = rest.as_chunks();
    Fabric::tested(
        usize::from(colours),
        usize::from(*channels),
        records.iter().map(read_record),
    )
}

/// C, from the header's first byte.
pub fn colours_in(first: u8) -> u8 {
    (first >> 1 & 7) + 1
}

pub fn file_length(components: usize) -> usize {
    HEADER + RECORD * components
}

/// Writes the file of a fabric whose fields fit their widths; `file` is just as long as it.
pub fn write_file(fabric: &Fabric, file: &mut [u8]) {
    let (header, rest) = file.split_at_mut(HEADER);
    let first = EDITION << 4 | (fabric.colours as u8 - 1) << 1;
    header.copy_from_slice(&[
        first,
        fabric.components.len() as u8,
        fabric.channels as u8,
        0,
    ]);
    let (records, _) = rest.as_chunks_mut();
    for (record, component) in records.iter_mut().zip(&fabric.components) {
        *record = write_record(component);
    }
    repair_check_byte(file);
}

/// Sets the check byte so that all bytes add up to 0.
pub fn repair_check_byte(file: &mut [u8]) {
    file[CHECK_BYTE] = 0;
    file[CHECK_BYTE] = byte_sum(file).wrapping_neg();
}

pub fn byte_sum(bytes: &[u8]) -> u8 {
    bytes.iter().fold(0, |sum, &byte| sum.wrapping_add(byte))
}

/// `None` if the six bits at the end are not 0.
fn read_record(record: &[u8; RECORD]) -> Option<Component> {
    let (component, end) = record_fields(record);
    (end == 0).then_some(component)
}

/// The component as its record has it, and the six bits at the end.
pub fn record_fields(record: &[u8; RECORD]) -> (Component, u8) {
    let mut bytes = [0; 16];
    bytes[16 - RECORD..].copy_from_slice(record);
    let bits = u128::from_be_bytes(bytes);
    let mut left = RECORD_BITS;
    let mut field = |width: u32| {
        left -= width;
        (bits >> left) as u8 & (0xFF >> (8 - width))
    };
    let component = Component {
        kind: Kind::ALL[usize::from(field(3))],
        ports: [field(8), field(8), field(8)],
        first_map: std::array::from_fn(|_| field(3)),
        second_map: std::array::from_fn(|_| field(3)),
        mask: field(8),
        capacity: field(6),
        filling: field(6),
        fill_colour: field(3),
    };
    (component, field(6))
}

fn write_record(component: &Component) -> [u8; RECORD] {
    let mut bits = 0_u128;
    let mut put = |width: u32, value: u8| bits = bits << width | u128::from(value);
    put(3, component.kind as u8);
    component.ports.iter().for_each(|&port| put(8, port));
    component.first_map.iter().for_each(|&entry| put(3, entry));
    component.second_map.iter().for_each(|&entry| put(3, entry));
    put(8, component.mask);
    put(6, component.capacity);
    put(6, component.filling);
    put(3, component.fill_colour);
    put(6, 0);
    let mut record = [0; RECORD];
    record.copy_from_slice(&bits.to_be_bytes()[16 - RECORD..]);
    record
}

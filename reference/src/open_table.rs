//! The open table: a row of 24 bytes a component, a byte a field.

use crate::component::{Component, Kind, MOST_COLOURS};
use crate::fabric::{test_ranges, Fabric};
use crate::refusal::Refusal;

pub const ROW: usize = 24;

/// Refusals 4, 3, 6, 7 and 8, in this order.
pub fn read_table(colours: u64, channels: u64, table: &[u8]) -> Result<Fabric, Refusal> {
    let (rows, []) = table.as_chunks() else {
        return Err(Refusal::WrongLength);
    };
    test_ranges(rows.len(), channels, colours)?;
    Fabric::tested(
        colours as usize,
        channels as usize,
        rows.iter().map(read_row),
    )
}

/// `table` is just as long as the fabric's rows.
pub fn write_table(fabric: &Fabric, table: &mut [u8]) {
    let (rows, _) = table.as_chunks_mut();
    for (row, component) in rows.iter_mut().zip(&fabric.components) {
        *row = write_row(component);
    }
}

/// `None` if there is no such kind.
pub fn read_row(row: &[u8; ROW]) -> Option<Component> {
    let [kind, a, b, c, maps @ .., mask, capacity, filling, fill_colour] = *row;
    let mut first_map = [0; MOST_COLOURS];
    let mut second_map = [0; MOST_COLOURS];
    first_map.copy_from_slice(&maps[..MOST_COLOURS]);
    second_map.copy_from_slice(&maps[MOST_COLOURS..]);
    let kind = *Kind::ALL.get(usize::from(kind))?;
    Some(Component {
        kind,
        ports: [a, b, c],
        first_map,
        second_map,
        mask,
        capacity,
        filling,
        fill_colour,
    })
}

fn write_row(component: &Component) -> [u8; ROW] {
    let mut row = [0; ROW];
    row[0] = component.kind as u8;
    row[1..4].copy_from_slice(&component.ports);
    row[4..12].copy_from_slice(&component.first_map);
    row[12..20].copy_from_slice(&component.second_map);
    row[20..].copy_from_slice(&[
        component.mask,
        component.capacity,
        component.filling,
        component.fill_colour,
    ]);
    row
}

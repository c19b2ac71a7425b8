//! Where each field lies in the file and in the row.

use super::{packed, unpack_answer, ROOM};
use crate::component::{Component, Kind};
use crate::fabric::Fabric;
use crate::samples::{credit_loop, queue, sink, source};
use crate::{pack, unpack, Unpacked};

#[test]
fn credit_loop_header_and_length() {
    let file = packed(&credit_loop());
    assert_eq!(file[..4], [0x10, 0x06, 0x06, 0x4E]);
    assert_eq!(file.len(), 82);
    let mut table = [0; 144];
    assert_eq!(
        unpack(&file, &mut table),
        Ok(Unpacked {
            colours: 1,
            channels: 6
        })
    );
    assert_eq!(
        table[..24],
        [0, 0, 0, 0, 0, 0, 0, 0, 0, 0, 0, 0, 0, 0, 0, 0, 0, 0, 0, 0, 0x80, 0, 0, 0]
    );
    assert_eq!(
        table[120..],
        [2, 5, 1, 0, 0, 0, 0, 0, 0, 0, 0, 0, 0, 0, 0, 0, 0, 0, 0, 0, 0, 2, 2, 0]
    );
}

#[test]
fn bits_of_a_queue() {
    let file = packed(&credit_loop());
    assert_eq!(
        file[69..],
        [0x40, 0xA0, 0x20, 0, 0, 0, 0, 0, 0, 0, 0x01, 0x04, 0]
    );
}

#[test]
fn bits_of_maps_and_fill_colour() {
    let fork = Component {
        first_map: [1, 0, 0, 0, 0, 0, 0, 0],
        second_map: [0, 1, 0, 0, 0, 0, 0, 0],
        ..Component::new(Kind::Fork, [3, 4, 5])
    };
    let filled = Component {
        fill_colour: 1,
        ..queue(0, 3, 63, 1)
    };
    let components = vec![
        source(0),
        filled,
        fork,
        sink(4),
        queue(5, 1, 1, 0),
        queue(1, 2, 1, 0),
        sink(2),
    ];
    let file = packed(&Fabric {
        colours: 2,
        channels: 6,
        components,
    });
    assert_eq!(file[0], 0x12);
    assert_eq!(
        file[17..30],
        [0x40, 0, 0x60, 0, 0, 0, 0, 0, 0, 0, 0x1F, 0x82, 0x40]
    );
    assert_eq!(
        file[30..43],
        [0x80, 0x60, 0x80, 0xA4, 0, 0, 0, 0x80, 0, 0, 0, 0, 0]
    );
}

#[test]
fn last_six_bits_of_a_record_are_a_field() {
    let mut file = packed(&credit_loop());
    file[4 + 13 * 3 - 1] = 1;
    file[3] = file[3].wrapping_sub(1);
    assert_eq!(unpack_answer(&file), (6, 2));
}

#[test]
fn values_are_not_cut_to_the_width_of_a_field() {
    for (column, value) in [(0, 8 + 2), (21, 64), (21, 64 + 2), (22, 64 + 2), (23, 8)] {
        let mut table = credit_loop().to_table();
        table[5 * 24 + column] = value;
        let mut file = [0; ROOM];
        let refusal = pack(1, 6, &table, &mut file).unwrap_err();
        assert_eq!(
            (refusal.number(), refusal.place()),
            (6, 5),
            "column {column}"
        );
    }
}

//! The ranges of the counts and of the fields.

use super::{fabric_answer, function, pack_answer, source_then_sink, unpack_answer};
use crate::component::{Component, Kind};
use crate::fabric::Fabric;
use crate::samples::{credit_loop, looped_queues, queue, sink, source};

#[test]
fn components_1_to_128() {
    assert_eq!(fabric_answer(&looped_queues(1)), (0, 0));
    assert_eq!(fabric_answer(&looped_queues(128)), (0, 0));
    assert_eq!(fabric_answer(&looped_queues(129)), (3, 0));
    assert_eq!(pack_answer(1, 1, &[]), (3, 0));
    assert_eq!(unpack_answer(&[0x10, 0, 1, 0xEF]), (3, 0));
}

#[test]
fn channels_and_colours_are_never_cut() {
    let table = credit_loop().to_table();
    for channels in [0, 256, 256 + 6, (1 << 32) + 6, u64::MAX] {
        assert_eq!(pack_answer(1, channels, &table), (3, 0));
    }
    assert_eq!(pack_answer(1, 255, &table), (7, 6));
    for colours in [0, 9, 256 + 1, (1 << 32) + 1, u64::MAX] {
        assert_eq!(pack_answer(colours, 6, &table), (3, 0));
    }
    assert_eq!(pack_answer(8, 6, &table), (0, 0));
}

#[test]
fn capacity_1_to_63_and_filling_up_to_it() {
    let with_queue =
        |capacity, filling| fabric_answer(&source_then_sink(queue(0, 1, capacity, filling)));
    assert_eq!(with_queue(63, 0), (0, 0));
    assert_eq!(with_queue(63, 63), (0, 0));
    assert_eq!(with_queue(1, 1), (0, 0));
    assert_eq!(with_queue(0, 0), (6, 1));
    assert_eq!(with_queue(2, 3), (6, 1));
}

#[test]
fn fill_colour_below_the_colours_and_0_in_an_empty_queue() {
    let with_fill = |colours, filling, fill_colour| {
        let filled = Component {
            fill_colour,
            ..queue(0, 1, 2, filling)
        };
        fabric_answer(&Fabric {
            colours,
            ..source_then_sink(filled)
        })
    };
    assert_eq!(with_fill(3, 1, 2), (0, 0));
    assert_eq!(with_fill(3, 1, 3), (6, 1));
    assert_eq!(with_fill(3, 0, 2), (6, 1));
}

#[test]
fn map_entries_below_the_colours_and_0_beyond() {
    let with_map = |colours, first_map| {
        let mapped = Component {
            first_map,
            ..function(0, 1)
        };
        fabric_answer(&Fabric {
            colours,
            ..source_then_sink(mapped)
        })
    };
    assert_eq!(with_map(8, [7, 6, 5, 4, 3, 2, 1, 7]), (0, 0));
    assert_eq!(with_map(7, [6, 5, 4, 3, 2, 1, 6, 0]), (0, 0));
    assert_eq!(with_map(7, [7, 0, 0, 0, 0, 0, 0, 0]), (6, 1));
    assert_eq!(with_map(7, [0, 0, 0, 0, 0, 0, 0, 1]), (6, 1));
}

#[test]
fn masks_of_source_and_switch() {
    let with_masks = |colours, emitted, switched| {
        let components = vec![
            Component {
                mask: emitted,
                ..source(0)
            },
            Component {
                mask: switched,
                ..Component::new(Kind::Switch, [0, 1, 2])
            },
            sink(1),
            sink(2),
        ];
        fabric_answer(&Fabric {
            colours,
            channels: 3,
            components,
        })
    };
    assert_eq!(with_masks(8, 0x01, 0xFF), (0, 0));
    assert_eq!(with_masks(2, 0xC0, 0x00), (0, 0));
    assert_eq!(with_masks(2, 0x00, 0x00), (6, 0));
    assert_eq!(with_masks(2, 0x20, 0x00), (6, 0));
    assert_eq!(with_masks(2, 0x80, 0x20), (6, 1));
}

/// Of each kind the fields that it uses; another value in any other field is refused.
#[test]
fn unused_fields_are_0() {
    type Change = fn(&mut Component);
    let changes: [(&str, Change); 9] = [
        ("A", |changed| changed.ports[0] = 1),
        ("B", |changed| changed.ports[1] = 1),
        ("C", |changed| changed.ports[2] = 1),
        ("first map", |changed| changed.first_map[1] = 1),
        ("second map", |changed| changed.second_map[1] = 1),
        ("mask", |changed| changed.mask |= 0x40),
        ("capacity", |changed| changed.capacity += 1),
        ("filling", |changed| changed.filling += 1),
        ("fill colour", |changed| changed.fill_colour = 1),
    ];
    let with_three_ports = |kind| Component::new(kind, [0; 3]);
    let kinds: [(Component, &[&str]); 8] = [
        (source(0), &["A", "mask"]),
        (sink(0), &["A"]),
        (
            queue(0, 0, 2, 1),
            &["A", "B", "capacity", "filling", "fill colour"],
        ),
        (function(0, 0), &["A", "B", "first map"]),
        (
            with_three_ports(Kind::Fork),
            &["A", "B", "C", "first map", "second map"],
        ),
        (with_three_ports(Kind::Join), &["A", "B", "C", "first map"]),
        (with_three_ports(Kind::Switch), &["A", "B", "C", "mask"]),
        (with_three_ports(Kind::Merge), &["A", "B", "C"]),
    ];
    for (component, used) in kinds {
        for (field, change) in changes {
            let mut changed = component;
            change(&mut changed);
            let good = changed.is_good(2, 2);
            assert_eq!(good, used.contains(&field), "{field} of {changed:?}");
        }
    }
}

//! Which field of a component is wrong.

use super::function;
use crate::component::{Component, Kind};
use crate::field_rules::{Map, WrongField};
use crate::samples::{queue, sink, source};

type Change = fn(&mut Component);

/// Of components that are good with 2 colours and 3 channels, what is wrong after a change.
fn each(component: Component, rows: &[(Change, WrongField)]) {
    assert_eq!(component.wrong_field(2, 3), None);
    for (change, wrong) in rows {
        let mut changed = component;
        change(&mut changed);
        assert_eq!(changed.wrong_field(2, 3), Some(*wrong), "{changed:?}");
    }
}

#[test]
fn ports() {
    each(
        Component::new(Kind::Join, [0, 1, 2]),
        &[
            (|join| join.ports[0] = 3, WrongField::Port(0)),
            (|join| join.ports[2] = 255, WrongField::Port(2)),
        ],
    );
    each(
        sink(2),
        &[
            (|sink| sink.ports[0] = 3, WrongField::Port(0)),
            (|sink| sink.ports[1] = 1, WrongField::UnusedPort(1)),
            (|sink| sink.ports[2] = 1, WrongField::UnusedPort(2)),
        ],
    );
}

#[test]
fn maps() {
    each(
        Component::new(Kind::Fork, [0, 1, 2]),
        &[
            (
                |fork| fork.first_map[1] = 2,
                WrongField::MapEntry(Map::First, 1),
            ),
            (
                |fork| fork.second_map[0] = 7,
                WrongField::MapEntry(Map::Second, 0),
            ),
            (
                |fork| fork.second_map[2] = 1,
                WrongField::MapEntryBeyond(Map::Second, 2),
            ),
        ],
    );
    each(
        function(0, 1),
        &[(
            |function| function.second_map[7] = 1,
            WrongField::UnusedMap(Map::Second, 7),
        )],
    );
    each(
        sink(0),
        &[(
            |sink| sink.first_map[0] = 1,
            WrongField::UnusedMap(Map::First, 0),
        )],
    );
}

#[test]
fn masks() {
    each(
        source(0),
        &[
            (|source| source.mask = 0, WrongField::EmitsNothing),
            (|source| source.mask = 0x20, WrongField::MaskBeyond(2)),
            (|source| source.mask = 0x81, WrongField::MaskBeyond(7)),
        ],
    );
    each(
        Component::new(Kind::Switch, [0, 1, 2]),
        &[(|switch| switch.mask = 0x20, WrongField::MaskBeyond(2))],
    );
    each(
        sink(0),
        &[(|sink| sink.mask = 0x80, WrongField::UnusedMask)],
    );
}

#[test]
fn fillings() {
    each(
        queue(0, 1, 2, 0),
        &[
            (|queue| queue.capacity = 0, WrongField::Capacity),
            (|queue| queue.capacity = 64, WrongField::Capacity),
            (|queue| queue.filling = 3, WrongField::Filling),
            (|queue| queue.fill_colour = 2, WrongField::FillColour),
            (|queue| queue.fill_colour = 1, WrongField::FillColourOfNone),
        ],
    );
    each(
        sink(0),
        &[
            (|sink| sink.capacity = 1, WrongField::UnusedCapacity),
            (|sink| sink.filling = 1, WrongField::UnusedFilling),
            (|sink| sink.fill_colour = 1, WrongField::UnusedFillColour),
        ],
    );
}

/// All fields are wrong; one after the other is put right, in the record's order.
#[test]
fn the_first_in_the_record_s_order() {
    let mut queue = Component {
        first_map: [1; 8],
        second_map: [1; 8],
        mask: 0x80,
        fill_colour: 1,
        ..queue(3, 3, 0, 1)
    };
    queue.ports[2] = 1;
    let repairs: [(WrongField, Change); 9] = [
        (WrongField::Port(0), |queue| queue.ports[0] = 0),
        (WrongField::Port(1), |queue| queue.ports[1] = 0),
        (WrongField::UnusedPort(2), |queue| queue.ports[2] = 0),
        (WrongField::UnusedMap(Map::First, 0), |queue| {
            queue.first_map = [0; 8]
        }),
        (WrongField::UnusedMap(Map::Second, 0), |queue| {
            queue.second_map = [0; 8]
        }),
        (WrongField::UnusedMask, |queue| queue.mask = 0),
        (WrongField::Capacity, |queue| {
            queue.capacity = 63;
            queue.filling = 64;
        }),
        (WrongField::Filling, |queue| queue.filling = 0),
        (WrongField::FillColourOfNone, |queue| queue.fill_colour = 0),
    ];
    for (wrong, repair) in repairs {
        assert_eq!(queue.wrong_field(2, 3), Some(wrong));
        repair(&mut queue);
    }
    assert_eq!(queue.wrong_field(2, 3), None);
}

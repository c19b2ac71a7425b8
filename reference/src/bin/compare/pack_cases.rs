//! Pack into memory of several contents, on a fabric whose file was worked out by hand: a source of
//! colour 0, a queue with one packet of colour 1, so that its record ends in a byte other than 0, and
//! a sink.

use reference::component::Component;
use reference::packed::{HEADER, RECORD};
use reference::samples::{queue, sink, source};
use reference::Fabric;

use crate::case::{Call, Case, Expected, Lent, LentCall};

const FILE: [u8; HEADER + 3 * RECORD] = [
    0x12, 3, 2, 0x77, // C 2, N 3, M 2, check byte
    0, 0, 0, 0, 0, 0, 0, 0, 0, 0x10, 0, 0, 0, // source
    0x40, 0, 0x20, 0, 0, 0, 0, 0, 0, 0, 0, 0x82, 0x40, // queue
    0x20, 0x20, 0, 0, 0, 0, 0, 0, 0, 0, 0, 0, 0, // sink
];

pub fn pack_cases() -> Vec<Case> {
    let memories = [0, 1, 0x77, 0x89, 0xFF].map(|byte| vec![byte; FILE.len()]);
    let longer = vec![0xFF; FILE.len() + 2];
    let mut cases: Vec<Case> = memories.into_iter().chain([longer]).map(packed).collect();
    let short = vec![0xFF; FILE.len() - 1];
    cases.push(case(2, short, Expected::NumberAndPlace(23, 0)));
    let exact = vec![0xFF; FILE.len()];
    cases.push(case(3, exact, Expected::NumberAndPlace(7, 2)));
    cases
}

/// The file stands at the front, and the bytes behind it stay.
fn packed(memory: Vec<u8>) -> Case {
    let mut after = memory.clone();
    after[..FILE.len()].copy_from_slice(&FILE);
    case(2, memory, Expected::Result(after))
}

/// The table has two channels, and is packed as one of so many.
fn case(channels: u64, memory: Vec<u8>, expected: Expected) -> Case {
    let filled = Component {
        fill_colour: 1,
        ..queue(0, 1, 1, 1)
    };
    let fabric = Fabric {
        colours: 2,
        channels: 2,
        components: vec![source(0), filled, sink(1)],
    };
    let call = Call::Pack {
        colours: 2,
        channels,
    };
    Case {
        fabric: Lent::new(fabric.to_table()),
        state: Lent::nothing(),
        calls: vec![LentCall {
            result: Lent::new(memory),
            ..LentCall::plain(call, &[], 0, expected)
        }],
        by_other_calls: true,
    }
}

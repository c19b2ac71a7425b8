//! Random open tables with counts of colours and channels: good, damaged, and mere noise.

use reference::open_table::ROW;
use reference::random::Random;

use crate::case::Call;
use crate::damaged_file::damage_count;
use crate::random_fabrics::random_or_damaged_fabric;
use crate::wild_number::wild_number;

/// Values around the ends of the fields' ranges.
const EDGES: [u8; 14] = [0, 1, 2, 7, 8, 9, 16, 62, 63, 64, 66, 127, 128, 255];

pub fn random_table(random: &mut Random) -> (Call, Vec<u8>) {
    let (mut colours, mut channels, mut table);
    if random.percent(8) {
        (colours, channels) = (random.between(1, 8) as u64, random.between(1, 255) as u64);
        table = noise(random);
    } else {
        let fabric = random_or_damaged_fabric(random);
        (colours, channels) = (fabric.colours as u64, fabric.channels as u64);
        table = fabric.to_table();
    }
    for _ in 0..damage_count(random) {
        damage(random, &mut table);
    }
    if random.percent(6) {
        colours = wild_number(random, colours);
    }
    if random.percent(6) {
        channels = wild_number(random, channels);
    }
    (Call::Pack { colours, channels }, table)
}

/// Bytes of any value, or all so low that they often suit their fields.
fn noise(random: &mut Random) -> Vec<u8> {
    let mut len = ROW * random.between(0, 140);
    if random.percent(20) {
        len = random.between(0, len);
    }
    let mut table = random.bytes(len);
    if random.percent(50) {
        let mask = random.pick(&[0x01, 0x03, 0x07]);
        table.iter_mut().for_each(|byte| *byte &= mask);
    }
    table
}

fn damage(random: &mut Random, table: &mut Vec<u8>) {
    if random.percent(12) || table.is_empty() {
        return damage_length(random, table);
    }
    let place = random.below(table.len());
    table[place] = match random.below(4) {
        0 => random.byte(),
        1 => table[place].wrapping_add(1),
        2 => table[place] ^ 1 << random.below(8),
        _ => random.pick(&EDGES),
    };
}

fn damage_length(random: &mut Random, table: &mut Vec<u8>) {
    let len = table.len();
    let changed = match random.below(6) {
        0 => len + 1,
        1 => len.saturating_sub(1),
        2 => len + ROW,
        3 => len.saturating_sub(ROW),
        4 => random.pick(&[0, 128 * ROW, 129 * ROW, 200 * ROW, 256 * ROW, 257 * ROW]),
        _ => random.between(0, len),
    };
    table.resize(changed, 0);
}

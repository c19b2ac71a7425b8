//! Random files: good, damaged at every layer, and mere noise.

use reference::packed::{file_length, repair_check_byte, HEADER, RECORD};
use reference::random::Random;

use crate::random_fabrics::random_or_damaged_fabric;

/// Edition, colours, the 0 bit, components and channels.
const HEADER_WIDTHS: [usize; 5] = [4, 3, 1, 8, 8];

/// Kind, ports, maps, mask, capacity, filling, fill colour and the bits that are 0.
const RECORD_WIDTHS: [usize; 25] = [
    3, 8, 8, 8, 3, 3, 3, 3, 3, 3, 3, 3, 3, 3, 3, 3, 3, 3, 3, 3, 8, 6, 6, 3, 6,
];

pub fn random_file(random: &mut Random) -> Vec<u8> {
    let mut file = match random.below(100) {
        0..3 => noise(random, 6),
        3..5 => noise(random, 4000),
        5..10 => header_and_noise(random),
        _ => random_or_damaged_fabric(random).to_file(),
    };
    for _ in 0..damage_count(random) {
        damage(random, &mut file);
    }
    if file.len() >= HEADER && random.percent(90) {
        repair_check_byte(&mut file);
    }
    file
}

/// How often a file or table is damaged once it is made.
pub fn damage_count(random: &mut Random) -> usize {
    match random.below(100) {
        0..55 => 0,
        55..91 => 1,
        _ => random.between(2, 4),
    }
}

fn noise(random: &mut Random, most: usize) -> Vec<u8> {
    let len = random.between(0, most);
    random.bytes(len)
}

/// Noise behind a header that suits its length.
fn header_and_noise(random: &mut Random) -> Vec<u8> {
    let components = random.between(1, 128);
    let mut file = random.bytes(file_length(components));
    file[0] = 0x10 | file[0] & 0x0E;
    file[1] = components as u8;
    file
}

fn damage(random: &mut Random, file: &mut Vec<u8>) {
    let records = file.len().saturating_sub(HEADER) / RECORD;
    match random.below(10) {
        0..3 if file.len() >= HEADER => damage_field(random, file, 0, &HEADER_WIDTHS),
        3..7 if records > 0 => {
            let first_bit = 8 * file_length(random.below(records));
            damage_field(random, file, first_bit, &RECORD_WIDTHS);
        }
        7 if !file.is_empty() => {
            let place = random.below(file.len());
            file[place] = random.byte();
        }
        _ => damage_length(random, file),
    }
}

/// Gives one field of those that lie from `first_bit` on another value.
fn damage_field(random: &mut Random, file: &mut [u8], first_bit: usize, widths: &[usize]) {
    let chosen = random.below(widths.len());
    let start = first_bit + widths[..chosen].iter().sum::<usize>();
    let value = random.up_to((1 << widths[chosen]) - 1);
    for (place, bit) in (start..start + widths[chosen]).rev().enumerate() {
        let lowest_first = value >> place & 1;
        file[bit / 8] &= !(0x80 >> (bit % 8));
        file[bit / 8] |= (lowest_first as u8) << (7 - bit % 8);
    }
}

fn damage_length(random: &mut Random, file: &mut Vec<u8>) {
    let len = file.len();
    let changed = match random.below(6) {
        0 => len + 1,
        1 => len + RECORD,
        2 => len.saturating_sub(1),
        3 => len.saturating_sub(RECORD),
        4 => random.between(0, len),
        _ => random.between(0, HEADER.min(len)),
    };
    file.resize(changed, random.byte());
}

//! Words for every refusal of the library, and for those that the fields do not explain.

use reference::netlist::{Names, Netlist};
use reference::packed::{file_length, repair_check_byte};
use reference::random::Random;
use reference::random_fabric::{random_fabric, Plan};
use reference::samples::credit_loop;
use reference::Fabric;

use super::{number_and_place, of_file, of_netlist};
use crate::calls::{self, Refused};

fn drawn(random: &mut Random) -> Fabric {
    let plan = Plan {
        size: random.between(1, 12),
        colours: random.between(1, 8),
        circles: random.percent(50),
    };
    random_fabric(random, &plan)
}

/// Says why, and ends in number and place.
fn explains(refused: Refused, words: &str) {
    let end = format!(" {}", number_and_place(refused));
    let why = words.strip_suffix(&end).expect(words);
    assert!(!why.is_empty() && why != "refused", "{words}");
}

/// Changes a byte or the length; most often the check byte is put right.
fn spoil(random: &mut Random, file: &mut Vec<u8>) {
    let place = match random.below(8) {
        0 => random.below(3),
        _ => random.below(file.len()),
    };
    file[place] ^= 1 << random.below(8);
    if random.percent(95) {
        repair_check_byte(file);
    }
    if random.percent(5) {
        file.truncate(random.below(file.len()));
    }
}

#[test]
fn each_refused_file_is_explained() {
    let mut numbers = [0; 9];
    for number in 0..20_000 {
        let random = &mut Random::new(31, number);
        let mut file = drawn(random).to_file();
        spoil(random, &mut file);
        if let Err(refused) = calls::unpack(&file) {
            explains(refused, &of_file(refused, &file));
            numbers[refused.number as usize] += 1;
        }
    }
    assert!(numbers[1..].iter().all(|count| *count > 20), "{numbers:?}");
}

#[test]
fn each_refused_netlist_is_explained() {
    let mut numbers = [0; 9];
    for number in 0..10_000 {
        let random = &mut Random::new(32, number);
        let mut fabric = drawn(random);
        let names = Names::numbered(&fabric);
        let place = random.below(fabric.components.len());
        let component = &mut fabric.components[place];
        match random.below(6) {
            0 => component.ports[random.below(3)] = random.byte(),
            1 => component.first_map[random.below(8)] ^= 1,
            2 => component.mask ^= 1 << random.below(8),
            3 => component.capacity = random.byte(),
            4 => component.filling = random.byte(),
            _ => fabric.components.clear(),
        }
        let netlist = Netlist { fabric, names };
        if let Err(refused) = calls::pack(&netlist.fabric) {
            explains(refused, &of_netlist(refused, &netlist));
            numbers[refused.number as usize] += 1;
        }
    }
    let reached = [3, 6, 7, 8].map(|number: usize| numbers[number]);
    assert!(reached.iter().all(|count| *count > 20), "{numbers:?}");
}

/// What the library would never say of this file is said by number and place alone.
#[test]
fn a_refusal_without_a_reason_is_said_by_number_and_place() {
    let file = credit_loop().to_file();
    let fabric = credit_loop();
    let names = Names::numbered(&fabric);
    let netlist = Netlist { fabric, names };
    let rows = [
        (2, 0, "refused (2)"),
        (3, 0, "refused (3)"),
        (6, 5, "refused (6 at 5)"),
        (6, 77, "refused (6 at 77)"),
        (7, 3, "refused (7 at 3)"),
        (8, 0, "refused (8)"),
        (23, 0, "refused (23)"),
        (99, 1, "refused (99)"),
        (6, u64::MAX, "refused (6 at 18446744073709551615)"),
    ];
    for (number, place, words) in rows {
        let refused = Refused { number, place };
        assert_eq!(of_file(refused, &file), words);
        assert_eq!(of_netlist(refused, &netlist), words);
    }

    // The end of a record is no reason for a 7.
    let mut with_end = file;
    with_end[file_length(4) - 1] |= 1;
    let refused = Refused {
        number: 7,
        place: 3,
    };
    assert_eq!(of_file(refused, &with_end), "refused (7 at 3)");
}

/// Any number and place for any bytes: words that end as they should.
#[test]
fn nothing_stops_the_words() {
    for number in 0..20_000 {
        let random = &mut Random::new(33, number);
        let length = random.below(60);
        let file = random.bytes(length);
        let refused = Refused {
            number: random.below(12) as u32,
            place: random.below(10) as u64,
        };
        let words = of_file(refused, &file);
        assert!(words.ends_with(&number_and_place(refused)), "{words}");
    }
}

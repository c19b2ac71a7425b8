//! Damage to the wiring and the counts of a fabric, before it is a file or a table.

use reference::random::Random;
use reference::{Fabric, Kind};

/// More components than a fabric may have, and still a count of one byte.
const TOO_MANY: usize = 200;

pub fn damage_fabric(random: &mut Random, fabric: &mut Fabric) {
    let place = random.below(fabric.components.len());
    match random.below(9) {
        0 => fabric.channels += 1,
        1 => fabric.channels -= 1,
        2 => fabric.channels = random.between(1, 255),
        3 => fabric.colours = random.between(1, 8),
        4 => fabric.components[place].kind = random.pick(&Kind::ALL),
        5 => {
            fabric.components.remove(place);
        }
        6 => {
            let copy = fabric.components[place];
            let last = if random.percent(50) {
                TOO_MANY
            } else {
                fabric.components.len() + 1
            };
            let count = random.between(fabric.components.len() + 1, last);
            fabric.components.resize(count, copy);
        }
        _ => damage_ports(random, fabric),
    }
}

/// Puts the channel of one port on another; most often the other port's on the first as well.
fn damage_ports(random: &mut Random, fabric: &mut Fabric) {
    let mut random_port = || {
        let place = random.below(fabric.components.len());
        let kind = fabric.components[place].kind;
        (
            place,
            random.below(kind.input_count() + kind.output_count()),
        )
    };
    let ((place, port), (other_place, other_port)) = (random_port(), random_port());
    let channel = fabric.components[place].ports[port];
    let other_channel = fabric.components[other_place].ports[other_port];
    fabric.components[other_place].ports[other_port] = channel;
    if random.percent(60) {
        fabric.components[place].ports[port] = other_channel;
    }
}

//! Random fabrics for the cases.

use reference::packed::{CHECK_BYTE, HEADER};
use reference::random::Random;
use reference::random_fabric::{random_fabric, Plan};
use reference::samples::{credit_loops, looped_queues, merge_row, switch_row};
use reference::Fabric;

use crate::damaged_fabric::damage_fabric;
use crate::damaged_file::random_file;

/// A fabric of one to 128 components, often small and often as large as can be.
/// Some are damaged in their wiring or counts.
pub fn random_or_damaged_fabric(random: &mut Random) -> Fabric {
    let size = match random.below(100) {
        0..40 => random.between(1, 8),
        40..65 => random.between(1, 128),
        _ => 128,
    };
    let plan = Plan {
        size,
        colours: random.between(1, 8),
        circles: random.percent(15),
    };
    let mut fabric = random_fabric(random, &plan);
    if random.percent(25) {
        damage_fabric(random, &mut fabric);
    }
    fabric
}

/// A fabric that is accepted, most often small.
pub fn good_fabric(random: &mut Random) -> Fabric {
    let size = match random.below(100) {
        0..4 => return credit_loops(random.between(1, 21)),
        4..6 => return looped_queues(random.between(1, 128)),
        6..8 => return switch_row(random.between(1, 63)),
        8..10 => return merge_row(random.between(1, 63)),
        10..75 => random.between(1, 16),
        75..90 => random.between(1, 60),
        _ => 128,
    };
    let plan = Plan {
        size,
        colours: random.between(1, 8),
        circles: false,
    };
    random_fabric(random, &plan)
}

/// The fabric's own file, or one that is most often refused.
pub fn file_or_damaged(random: &mut Random, fabric: &Fabric) -> Vec<u8> {
    let mut file = fabric.to_file();
    match random.below(100) {
        0..3 => file[CHECK_BYTE] = random.byte(),
        3..6 => file.truncate(random.below(HEADER)),
        6..8 => file[random.between(1, 2)] = 0,
        8..11 => return with_circles(random).to_file(),
        11..50 => return random_file(random),
        _ => {}
    }
    file
}

/// A fabric in which most often there is a circle.
fn with_circles(random: &mut Random) -> Fabric {
    let plan = Plan {
        size: random.between(10, 128),
        colours: random.between(1, 8),
        circles: true,
    };
    random_fabric(random, &plan)
}

//! Random calls to ceiling.

use reference::check::judged;
use reference::component::MOST_COLOURS;
use reference::random::Random;
use reference::random_proposal::Equations;
use reference::Fabric;

use crate::case::{Call, Case};
use crate::damaged_proposal::random_proposal;
use crate::random_cases::one_call;
use crate::random_fabrics::{file_or_damaged, good_fabric};
use crate::wild_number::wild_number;

pub fn random_ceiling_case(random: &mut Random) -> Case {
    let fabric = good_fabric(random);
    let file = file_or_damaged(random, &fabric);
    let proposal = random_proposal(random, &Equations::of(&fabric));
    let call = random_ceiling(random, &fabric, &proposal);
    one_call(random, call, [file, Vec::new(), proposal, Vec::new()])
}

/// In some calls queue or colour is out of its range, often right in its lowest bits alone.
pub fn random_ceiling(random: &mut Random, fabric: &Fabric, proposal: &[u8]) -> Call {
    let (mut queue, mut colour) = random_place(random, fabric, proposal);
    match random.below(100) {
        0..8 => queue = wild_number(random, queue),
        8..16 => colour = wild_number(random, colour),
        16..20 => colour = random.below(MOST_COLOURS) as u64,
        _ => {}
    }
    Call::Ceiling { queue, colour }
}

/// Most often the place of a weight above 0, if there is one, else any component and a colour.
fn random_place(random: &mut Random, fabric: &Fabric, proposal: &[u8]) -> (u64, u64) {
    let above_0 = places_above_0(fabric, proposal);
    if !above_0.is_empty() && random.percent(70) {
        return random.pick(&above_0);
    }
    let component = random.below(fabric.components.len());
    (component as u64, random.below(fabric.colours) as u64)
}

/// None if the proposal is refused.
pub fn places_above_0(fabric: &Fabric, proposal: &[u8]) -> Vec<(u64, u64)> {
    let sum = judged(fabric, proposal);
    sum.iter().flat_map(|sum| sum.places_above_0()).collect()
}

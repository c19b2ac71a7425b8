//! Random states: most often good, else damaged in a byte or in their length.

use reference::random::Random;
use reference::random_state::random_state;
use reference::state::COMPONENT_STATE;
use reference::{Component, Fabric, Kind};

pub fn good_or_damaged_state(random: &mut Random, fabric: &Fabric) -> Vec<u8> {
    let mut state = random_state(random, fabric);
    if random.percent(10) {
        for _ in 0..random.pick(&[1, 1, 3]) {
            damage(random, fabric, &mut state);
        }
    }
    let len = state.len();
    let changed = match random.below(100) {
        0..4 => len - 1,
        4..7 => random.below(len),
        7..14 => len + random.between(1, 100),
        _ => len,
    };
    state.resize(changed, random.byte());
    state
}

fn damage(random: &mut Random, fabric: &Fabric, state: &mut [u8]) {
    let place = damaged_place(random, fabric);
    let Component { kind, capacity, .. } = fabric.components[place];
    let own = &mut state[COMPONENT_STATE * place..][..COMPONENT_STATE];
    let behind = match kind {
        Kind::Queue => usize::from(own[0]).min(COMPONENT_STATE - 1) + 1,
        _ => 1,
    };
    match random.below(6) {
        0 => own[0] = random.byte(),
        1 => own[0] = random.pick(&[1, 2, 3, 8, 9, 63, 64]),
        2 => own[0] = capacity + 1,
        3 => own[behind % COMPONENT_STATE] = random.pick(&[1, 7, 255]),
        4 => own[random.below(behind)] = random.pick(&[fabric.colours as u8, 8, 255]),
        _ => own[random.below(COMPONENT_STATE)] = random.byte(),
    }
}

/// Any component, often a merge.
fn damaged_place(random: &mut Random, fabric: &Fabric) -> usize {
    let is_merge = |&place: &usize| fabric.components[place].kind == Kind::Merge;
    let merges: Vec<usize> = (0..fabric.components.len()).filter(is_merge).collect();
    if !merges.is_empty() && random.percent(50) {
        return random.pick(&merges);
    }
    random.below(fabric.components.len())
}

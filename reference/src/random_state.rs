//! Random good states and allowed choices.

use crate::choices::is_allowed;
use crate::component::{Component, Kind};
use crate::fabric::Fabric;
use crate::random::Random;
use crate::state::COMPONENT_STATE;

/// Queues are often full or empty; sources, sinks and merges often hold.
pub fn random_state(random: &mut Random, fabric: &Fabric) -> Vec<u8> {
    let mut bytes = vec![0; COMPONENT_STATE * fabric.components.len()];
    let states = bytes.chunks_mut(COMPONENT_STATE);
    for (state, component) in states.zip(&fabric.components) {
        if component.kind == Kind::Queue {
            let count = random.up_to(usize::from(component.capacity));
            state[0] = count as u8;
            state[1..=count].fill_with(|| random.below(fabric.colours) as u8);
        } else if random.percent(50) {
            state[0] = random.pick(&held_besides_0(component));
        }
    }
    bytes
}

/// Allowed choices of so many steps, in which few or most of the components choose.
pub fn random_choices(random: &mut Random, fabric: &Fabric, steps: usize) -> Vec<u8> {
    let active = random.pick(&[20, 50, 80, 100]);
    let of_components: Vec<_> = fabric.components.iter().map(allowed_besides_0).collect();
    let mut choices = Vec::with_capacity(steps * of_components.len());
    for _ in 0..steps {
        choices.extend(of_components.iter().map(|allowed| match allowed[..] {
            [0] => 0,
            _ if random.percent(active) => random.pick(allowed),
            _ => 0,
        }));
    }
    choices
}

/// What byte 0 may be other than 0, or 0 alone: what a source or a sink may choose is what it may
/// hold.
fn held_besides_0(component: &Component) -> Vec<u8> {
    match component.kind {
        Kind::Merge => vec![1, 2],
        _ => allowed_besides_0(component),
    }
}

/// The choices other than 0, or 0 alone.
fn allowed_besides_0(component: &Component) -> Vec<u8> {
    let mut allowed: Vec<u8> = (1..=8)
        .filter(|&byte| is_allowed(component, byte))
        .collect();
    if allowed.is_empty() {
        allowed.push(0);
    }
    allowed
}

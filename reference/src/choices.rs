//! The choices: a byte a component in each step.

use crate::component::{Component, Kind};
use crate::state::none_or_emitted;

/// Source 0 or 1 + an emitted colour; sink and merge 0 or 1; others 0.
pub fn is_allowed(component: &Component, choice: u8) -> bool {
    match component.kind {
        Kind::Source => none_or_emitted(component, choice),
        Kind::Sink | Kind::Merge => choice <= 1,
        _ => choice == 0,
    }
}

/// The offset of the first choice that is not allowed, in the choices of any number of steps.
pub fn lowest_bad_choice(components: &[Component], choices: &[u8]) -> Option<usize> {
    let mut pairs = choices.iter().zip(components.iter().cycle());
    pairs.position(|(&choice, component)| !is_allowed(component, choice))
}

//! The circle test, by removal.

use crate::component::Component;
use crate::dependences::{dependences, Dependence, Signal};

/// A fabric is refused exactly if these dependences hold a circle.
pub fn has_circle(components: &[Component]) -> bool {
    let all = components.iter().flat_map(dependences).collect();
    !left_by_removal(all).is_empty()
}

/// Removes the signals that have no open dependence, and so the dependences on them, until there is
/// no such signal. What is then left holds a circle, unless nothing is left.
pub fn left_by_removal(mut left: Vec<Dependence>) -> Vec<Dependence> {
    loop {
        let before = left.len();
        let mut depends = [false; Signal::COUNT];
        for (signal, _) in &left {
            depends[signal.index()] = true;
        }
        left.retain(|(_, on)| depends[on.index()]);
        if left.len() == before {
            return left;
        }
    }
}

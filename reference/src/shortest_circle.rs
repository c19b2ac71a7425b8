//! A shortest circle of signals: where a refused fabric waits for itself.

use crate::circle::left_by_removal;
use crate::component::Component;
use crate::dependences::{dependences, Signal};

/// Signals, each once, that depend each on the next and the last on the first; `None` if no circle
/// is there. Of the shortest the one with the lowest signal, which comes first.
pub fn shortest_circle(components: &[Component]) -> Option<Vec<Signal>> {
    let mut left = left_by_removal(components.iter().flat_map(dependences).collect());
    left.sort_by_key(|(signal, _)| signal.index());
    let mut depends_on = vec![Vec::new(); Signal::COUNT];
    for (signal, on) in &left {
        depends_on[signal.index()].push(*on);
    }
    left.dedup_by_key(|(signal, _)| signal.index());
    let circles = left
        .iter()
        .filter_map(|(signal, _)| circle_through(*signal, &depends_on));
    circles.min_by_key(Vec::len)
}

/// The shortest way from a signal to itself, breadth first.
fn circle_through(start: Signal, depends_on: &[Vec<Signal>]) -> Option<Vec<Signal>> {
    let mut reached = vec![start];
    let mut reached_from = [None; Signal::COUNT];
    let mut next = 0;
    while let Some(&signal) = reached.get(next) {
        next += 1;
        for &on in &depends_on[signal.index()] {
            if on == start {
                return Some(way_to(signal, &reached_from));
            }
            if reached_from[on.index()].is_none() {
                reached_from[on.index()] = Some(signal);
                reached.push(on);
            }
        }
    }
    None
}

fn way_to(last: Signal, reached_from: &[Option<Signal>; Signal::COUNT]) -> Vec<Signal> {
    let back = std::iter::successors(Some(last), |signal| reached_from[signal.index()]);
    let mut way: Vec<Signal> = back.collect();
    way.reverse();
    way
}

//! The circle that is named for a refused fabric.

use super::function;
use crate::circle::has_circle;
use crate::component::{Component, Kind};
use crate::dependences::Signal::{self, Offer, Take};
use crate::dependences::{dependences, Dependence};
use crate::random::Random;
use crate::random_fabric::{random_fabric, Plan};
use crate::samples::{credit_loop, fork_into_join, sink, source};
use crate::shortest_circle::shortest_circle;

#[test]
fn none_in_the_credit_loop() {
    assert_eq!(shortest_circle(&credit_loop().components), None);
}

#[test]
fn a_component_on_itself() {
    assert_eq!(shortest_circle(&[function(0, 0)]), Some(vec![Offer(0)]));
}

#[test]
fn a_fork_into_a_join() {
    let circle = shortest_circle(&fork_into_join().components);
    assert_eq!(circle, Some(vec![Offer(1), Take(2)]));
}

#[test]
fn a_fork_into_two_switches() {
    let components = [
        source(0),
        Component::new(Kind::Fork, [0, 1, 2]),
        Component::new(Kind::Switch, [1, 3, 4]),
        Component::new(Kind::Switch, [2, 5, 6]),
        sink(3),
        sink(4),
        sink(5),
        sink(6),
    ];
    let circle = shortest_circle(&components);
    assert_eq!(circle, Some(vec![Offer(1), Take(2), Offer(2), Take(1)]));
}

/// A ring of three functions with a lower channel than the ring of two behind it.
#[test]
fn the_shorter_of_two_rings() {
    let rings = [
        function(0, 1),
        function(1, 2),
        function(2, 0),
        function(3, 4),
        function(4, 3),
    ];
    assert_eq!(shortest_circle(&rings), Some(vec![Offer(3), Offer(4)]));
}

/// By as many rounds as there are dependences: whether a signal comes to itself in so many steps.
fn comes_back_within(steps: usize, all: &[Dependence]) -> bool {
    all.iter().any(|(start, _)| {
        let mut reached = vec![*start];
        (0..steps).any(|_| {
            reached = all
                .iter()
                .filter(|(signal, _)| reached.contains(signal))
                .map(|(_, on)| *on)
                .collect();
            reached.contains(start)
        })
    })
}

#[test]
fn each_signal_once_each_depends_on_the_next_and_none_is_shorter() {
    let mut longest = 0;
    for number in 0..400 {
        let random = &mut Random::new(13, number);
        let plan = Plan {
            size: random.between(1, 14),
            colours: 1,
            circles: true,
        };
        let components = random_fabric(random, &plan).components;
        let all: Vec<Dependence> = components.iter().flat_map(dependences).collect();
        let Some(circle) = shortest_circle(&components) else {
            assert!(!has_circle(&components));
            continue;
        };
        let next = circle.iter().cycle().skip(1);
        for pair in circle.iter().copied().zip(next.copied()) {
            assert!(all.contains(&pair), "{circle:?}");
        }
        let mut once: Vec<usize> = circle
            .iter()
            .map(|signal: &Signal| signal.index())
            .collect();
        once.sort();
        once.dedup();
        assert_eq!(once.len(), circle.len());
        assert!(!comes_back_within(circle.len() - 1, &all), "{circle:?}");
        longest = longest.max(circle.len());
    }
    assert!(longest > 4);
}

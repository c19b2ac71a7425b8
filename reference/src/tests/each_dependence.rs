//! Every single dependence: circles that need it, for function, fork and join; lists, for switch
//! and merge.
//!
//! The dependences are their own mirror image, with offer and take changed over and the arrows
//! turned round, so most circles come in pairs. These are their own image. In a switch or merge such
//! a circle can be cut short from take(A) to offer(A), so that no circle needs the others.

use super::{fabric_answer, function};
use crate::component::{Component, Kind};
use crate::dependences::dependences;
use crate::dependences::Signal::{self, Offer, Take};
use crate::fabric::Fabric;
use crate::samples::{queue, sink, source};

const CIRCLE: (u32, u64) = (8, 0);

/// A fork whose outputs go to two switches, one of them through `between`, from 1 to 5.
/// The channel 8 is left to `between` and `end`.
fn fork_into_two_switches(between: Component, end: Component) -> (u32, u64) {
    let components = vec![
        source(0),
        Component::new(Kind::Fork, [0, 1, 2]),
        Component::new(Kind::Switch, [2, 3, 4]),
        sink(3),
        sink(4),
        between,
        end,
        Component::new(Kind::Switch, [5, 6, 7]),
        sink(6),
        sink(7),
    ];
    fabric_answer(&Fabric {
        colours: 1,
        channels: 9,
        components,
    })
}

#[test]
fn a_queue_between_leaves_no_circle() {
    let end = queue(8, 8, 1, 0);
    assert_eq!(fork_into_two_switches(queue(1, 5, 1, 0), end), (0, 0));
}

#[test]
fn through_a_function() {
    assert_eq!(
        fork_into_two_switches(function(1, 5), queue(8, 8, 1, 0)),
        CIRCLE
    );
}

#[test]
fn through_either_output_of_a_fork() {
    for ports in [[1, 5, 8], [1, 8, 5]] {
        assert_eq!(
            fork_into_two_switches(Component::new(Kind::Fork, ports), sink(8)),
            CIRCLE
        );
    }
}

#[test]
fn through_either_input_of_a_join() {
    for ports in [[1, 8, 5], [8, 1, 5]] {
        assert_eq!(
            fork_into_two_switches(Component::new(Kind::Join, ports), source(8)),
            CIRCLE
        );
    }
}

/// Each fork feeds one input of the join and a switch.
#[test]
fn across_the_inputs_of_a_join() {
    let mut components = vec![
        Component::new(Kind::Fork, [0, 1, 2]),
        Component::new(Kind::Fork, [3, 4, 5]),
        Component::new(Kind::Join, [1, 4, 6]),
        Component::new(Kind::Switch, [2, 7, 8]),
        Component::new(Kind::Switch, [5, 9, 10]),
    ];
    components.extend([0, 3].map(source));
    components.extend([6, 7, 8, 9, 10].map(sink));
    assert_eq!(
        fabric_answer(&Fabric {
            colours: 1,
            channels: 11,
            components
        }),
        CIRCLE
    );
}

/// What a signal of a component with ports 0, 1 and 2 depends on.
fn depends_on(kind: Kind, signal: Signal) -> Vec<Signal> {
    let all = dependences(&Component::new(kind, [0, 1, 2])).into_iter();
    let own = all.filter(|&(of, _)| of == signal);
    own.map(|(_, on)| on).collect()
}

#[test]
fn of_a_switch() {
    assert_eq!(depends_on(Kind::Switch, Offer(1)), [Offer(0)]);
    assert_eq!(depends_on(Kind::Switch, Offer(2)), [Offer(0)]);
    let offer_and_outputs = [Offer(0), Take(1), Take(2)];
    assert_eq!(depends_on(Kind::Switch, Take(0)), offer_and_outputs);
}

#[test]
fn of_a_merge() {
    assert_eq!(depends_on(Kind::Merge, Offer(2)), [Offer(0), Offer(1)]);
    let both_offers_and_output = [Offer(0), Offer(1), Take(2)];
    assert_eq!(depends_on(Kind::Merge, Take(0)), both_offers_and_output);
    assert_eq!(depends_on(Kind::Merge, Take(1)), both_offers_and_output);
}

//! The check ignores a leftover flow outside the colour sets, and no other; worked out by hand.

use super::{ceiling_answer, check_answer, term};
use crate::component::{Component, Kind};
use crate::fabric::Fabric;
use crate::left::Left;
use crate::listing;
use crate::samples::{colour_0_alone, credit_loop, emits, queue, sink, source};
use crate::terms::{write_proposal, Term};

fn listed(fabric: &Fabric, terms: &[Term]) -> String {
    listing(&fabric.to_file(), &write_proposal(terms))
}

#[test]
fn a_colour_that_never_comes() {
    let fabric = colour_0_alone();
    assert_eq!(listed(&fabric, &[term(1, 1, 7)]), "Q 1 1 7\nSUM 0\n");
    assert_eq!(listed(&fabric, &[term(1, 0, 7)]), "NO 13 0\n");
}

#[test]
fn the_lowest_flow_inside_is_named() {
    let mut fabric = colour_0_alone();
    let both = [term(1, 1, 7), term(1, 0, 1)];
    assert_eq!(check_answer(&fabric, &both), (13, 0));
    // Colour 1 is below colour 2.
    fabric.colours = 3;
    fabric.components[0].mask = 0x20;
    let all = [term(1, 0, 1), term(1, 1, 1), term(1, 2, 1)];
    assert_eq!(check_answer(&fabric, &all), (13, 2));
    assert_eq!(check_answer(&fabric, &all[..2]), (0, 0));
}

/// Channel 0 is outside for colour 1, channel 1 is not.
#[test]
fn one_end_of_a_queue_may_be_outside() {
    let mut fabric = colour_0_alone();
    fabric.components[1].filling = 1;
    fabric.components[1].fill_colour = 1;
    assert_eq!(check_answer(&fabric, &[term(1, 1, 7)]), (13, 9));
}

/// Colour 1 alone comes through; flow 0 is outside, flow 1 inside.
#[test]
fn where_the_flows_lie_that_are_left() {
    let mut fabric = colour_0_alone();
    fabric.colours = 3;
    fabric.components[0].mask = 0x40;
    let left = |terms: &[Term]| Left::of(&fabric, &write_proposal(terms));
    let [colour_0, colour_1, colour_2] = [0, 1, 2].map(|index| term(1, index, 1));
    assert_eq!(left(&[]), Left::Nothing);
    assert_eq!(left(&[colour_1, term(1, 1, -1)]), Left::Nothing);
    assert_eq!(left(&[colour_0, colour_2]), Left::Outside);
    assert_eq!(left(&[colour_1]), Left::Inside);
    assert_eq!(left(&[colour_0, colour_1]), Left::LowestOutside);
    assert_eq!(left(&[colour_1, colour_2]), Left::LowestInside);
    assert_eq!(left(&[colour_1, term(0, 1, 1)]), Left::Nothing, "12");
}

/// Once full, the queue would have to take what it gives itself: nothing ever moves on channel 1,
/// where colour 0 is inside all the same.
#[test]
fn whether_or_not_a_run_ever_moves_it() {
    let fabric = Fabric {
        colours: 1,
        channels: 3,
        components: vec![
            source(0),
            Component::new(Kind::Merge, [0, 1, 2]),
            queue(2, 1, 1, 0),
        ],
    };
    assert_eq!(check_answer(&fabric, &[term(2, 0, 1)]), (13, 8));
    assert_eq!(
        check_answer(&fabric, &[term(2, 0, 1), term(1, 0, 1)]),
        (13, 0)
    );
}

/// The filling is 0, so the join waits for ever, and all behind it is outside.
#[test]
fn a_credit_loop_without_credits() {
    let mut fabric = credit_loop();
    fabric.components[5].filling = 0;
    assert_eq!(listed(&fabric, &[term(2, 0, 3)]), "Q 2 0 3\nSUM 0\n");
    assert_eq!(listed(&fabric, &[term(5, 0, -1)]), "Q 5 0 -1\nSUM 0\n");
    // L(0,0) - L(1,0)
    let terms = [term(2, 0, 3), term(1, 8, 1)];
    assert_eq!(check_answer(&fabric, &terms), (13, 0));
    assert_eq!(check_answer(&credit_loop(), &[term(2, 0, 3)]), (13, 16));
}

/// 14 where no weight is left, whatever flows are outside; 12 comes first.
#[test]
fn without_a_weight_it_is_14() {
    let fabric = colour_0_alone();
    assert_eq!(check_answer(&fabric, &[term(0, 1, 5)]), (14, 0));
    assert_eq!(
        check_answer(&fabric, &[term(1, 1, 2), term(1, 1, -2)]),
        (14, 0)
    );
    assert_eq!(
        check_answer(&fabric, &[term(1, 1, 2), term(1, 2, 1)]),
        (12, 1)
    );
}

/// n(1,1) = 0, and 2 n(1,1) - n(2,1) = 0 with the weight below 0 counted as full.
#[test]
fn ceilings_by_such_a_sum() {
    let fabric = Fabric {
        colours: 2,
        channels: 3,
        components: vec![source(0), queue(0, 1, 9, 0), queue(1, 2, 5, 0), sink(2)],
    };
    assert_eq!(ceiling_answer(&fabric, &[term(1, 1, 1)], 1, 1), Ok(0));
    let terms = [term(1, 1, 2), term(2, 1, -1)];
    assert_eq!(ceiling_answer(&fabric, &terms, 1, 1), Ok(2));
    assert_eq!(
        ceiling_answer(&fabric, &[term(1, 0, 1)], 1, 0),
        Err((13, 0))
    );
}

/// What a switch sends to B never comes out at C.
#[test]
fn behind_a_switch() {
    let switch = Component {
        mask: 0x80,
        ..Component::new(Kind::Switch, [0, 1, 2])
    };
    let fabric = Fabric {
        colours: 2,
        channels: 5,
        components: vec![
            emits(0xC0, 0),
            switch,
            queue(1, 3, 1, 0),
            queue(2, 4, 1, 0),
            sink(3),
            sink(4),
        ],
    };
    assert_eq!(check_answer(&fabric, &[term(2, 1, 1)]), (0, 0));
    assert_eq!(check_answer(&fabric, &[term(3, 0, 1)]), (0, 0));
    assert_eq!(check_answer(&fabric, &[term(2, 0, 1)]), (13, 8));
    assert_eq!(check_answer(&fabric, &[term(3, 1, 1)]), (13, 17));
}

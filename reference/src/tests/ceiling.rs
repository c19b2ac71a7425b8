//! The ceiling for a place, worked out by hand.

use super::{ceiling_answer, first_bytes, moves, started, term};
use crate::component::{Component, Kind};
use crate::fabric::Fabric;
use crate::samples::{credit_loop, credit_terms, looped_queues, queue, sink, source};
use crate::terms::Term;

/// n(2) + n(5) = 2.
#[test]
fn of_the_credit_loop() {
    let (fabric, terms) = (credit_loop(), credit_terms());
    assert_eq!(ceiling_answer(&fabric, &terms, 2, 0), Ok(2));
    assert_eq!(ceiling_answer(&fabric, &terms, 5, 0), Ok(2));
}

#[test]
fn the_smaller_of_quotient_and_capacity() {
    let mut fabric = credit_loop();
    for (capacity, smaller) in [(1, 1), (2, 2), (3, 2), (5, 2), (63, 2)] {
        fabric.components[2].capacity = capacity;
        let answer = ceiling_answer(&fabric, &credit_terms(), 2, 0);
        assert_eq!(answer, Ok(smaller), "{capacity}");
    }
}

/// A fork into two queues into a join: n(2) - n(3) = 1, and 3 holds at most 3.
fn fork_into_queues() -> Fabric {
    let components = vec![
        source(0),
        Component::new(Kind::Fork, [0, 1, 2]),
        queue(1, 3, 7, 1),
        queue(2, 4, 3, 0),
        Component::new(Kind::Join, [3, 4, 5]),
        sink(5),
    ];
    Fabric {
        colours: 1,
        channels: 6,
        components,
    }
}

/// So many times the sum n(2) - n(3).
fn difference(times: i64) -> [Term; 5] {
    [
        term(2, 0, times),
        term(3, 0, -times),
        term(1, 0, times),
        term(1, 8, -times),
        term(4, 8, -times),
    ]
}

/// 1 + 3; the other way round (-2 + 2 * 7) / 2, and the capacity is smaller.
#[test]
fn a_weight_below_0_counts_its_queue_as_full() {
    let fabric = fork_into_queues();
    assert_eq!(ceiling_answer(&fabric, &difference(1), 2, 0), Ok(4));
    assert_eq!(ceiling_answer(&fabric, &difference(-2), 3, 0), Ok(3));
}

/// The source offers in every step and the sink never takes.
#[test]
fn a_run_comes_up_to_it_and_no_further() {
    let fabric = fork_into_queues();
    let mut state = started(&fabric);
    for count in [2, 3, 4, 4, 4] {
        moves(&fabric, &mut state, &[1, 0, 0, 0, 0, 0]);
        assert_eq!(first_bytes(&state)[2], count);
    }
}

/// Two queues on themselves, whose flows cancel whatever the weights are.
fn on_themselves(colours: usize, capacity: u8) -> Fabric {
    Fabric {
        colours,
        components: vec![queue(0, 0, 63, 0), queue(1, 1, capacity, 0)],
        ..looped_queues(2)
    }
}

/// 2 n(0) - n(1) = 0.
#[test]
fn the_quotient_is_rounded_down() {
    let terms = [term(0, 0, 2), term(1, 0, -1)];
    for (capacity, quotient) in [(1, 0), (3, 1), (4, 2), (5, 2), (6, 3)] {
        let answer = ceiling_answer(&on_themselves(1, capacity), &terms, 0, 0);
        assert_eq!(answer, Ok(quotient), "{capacity}");
    }
}

/// n(0,0) - n(1,0) - 2 n(1,2) = 0 gives 5 + 2 * 5; 2 n(1,1) - n(1,0) = 0 gives 5 / 2.
#[test]
fn each_colour_of_a_queue_counts_by_itself() {
    let fabric = on_themselves(3, 5);
    let terms = [term(0, 0, 1), term(1, 0, -1), term(1, 2, -2)];
    assert_eq!(ceiling_answer(&fabric, &terms, 0, 0), Ok(15));
    let terms = [term(1, 1, 2), term(1, 0, -1)];
    assert_eq!(ceiling_answer(&fabric, &terms, 1, 1), Ok(2));
}

/// n(0,1) - n(1,0) = -4 gives -4 + 4.
#[test]
fn a_constant_below_0() {
    let mut fabric = on_themselves(2, 4);
    fabric.components[1].filling = 4;
    let terms = [term(0, 1, 1), term(1, 0, -1)];
    assert_eq!(ceiling_answer(&fabric, &terms, 0, 1), Ok(0));
}

/// 2 n(0) + 3 n(1) = 14.
#[test]
fn other_weights_above_0_do_not_count() {
    let mut fabric = on_themselves(1, 9);
    fabric.components[0].filling = 7;
    let terms = [term(0, 0, 2), term(1, 0, 3)];
    assert_eq!(ceiling_answer(&fabric, &terms, 0, 0), Ok(7));
    assert_eq!(ceiling_answer(&fabric, &terms, 1, 0), Ok(4));
}

/// 31 times 2^31 is divided by 2^31 - 2^11.
#[test]
fn sums_outgrow_32_bits() {
    let mut terms = vec![term(0, 0, (1 << 20) - 1); 2048];
    terms.extend([term(1, 0, -(1 << 20)); 2048]);
    let answer = ceiling_answer(&on_themselves(1, 31), &terms, 0, 0);
    assert_eq!(answer, Ok(31));
}

//! What the removal of signals without an open dependence leaves.

use crate::circle::left_by_removal;
use crate::dependences::Dependence;
use crate::dependences::Signal::{Offer, Take};

const NONE: [Dependence; 0] = [];

#[test]
fn nothing_of_a_row_in_either_order() {
    let mut row: Vec<Dependence> = (0..254).map(|x| (Offer(x), Offer(x + 1))).collect();
    assert_eq!(left_by_removal(row.clone()), NONE);
    row.reverse();
    assert_eq!(left_by_removal(row), NONE);
}

/// Two ways from one signal to another are no circle, nor are the two signals of one channel.
#[test]
fn nothing_where_ways_meet() {
    let ways = vec![
        (Offer(0), Offer(1)),
        (Offer(0), Take(1)),
        (Offer(1), Take(2)),
        (Take(1), Take(2)),
        (Take(2), Take(0)),
    ];
    assert_eq!(left_by_removal(ways), NONE);
}

#[test]
fn a_circle_and_what_depends_on_it() {
    let depends_on_the_circle = [(Take(9), Offer(8)), (Offer(8), Offer(1))];
    let circle = [
        (Offer(1), Take(2)),
        (Take(2), Offer(3)),
        (Offer(3), Offer(1)),
    ];
    let the_circle_depends_on = [(Take(2), Take(5)), (Take(5), Offer(6))];
    let apart = [(Offer(10), Take(11))];
    let all = [
        &depends_on_the_circle[..],
        &the_circle_depends_on,
        &circle,
        &apart,
    ];
    let left = [&depends_on_the_circle[..], &circle];
    assert_eq!(left_by_removal(all.concat()), left.concat());
}

#[test]
fn a_signal_that_depends_on_itself() {
    let alone = vec![(Take(255), Take(255))];
    assert_eq!(left_by_removal(alone.clone()), alone);
}

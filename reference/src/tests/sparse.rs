//! Rows of integers: never a wrong factor.

use crate::sparse::{added, collected, divide_by_common, factor_of};

#[test]
fn equal_numbers_add_up_and_those_that_cancel_go() {
    assert_eq!(
        collected(vec![(7, 1), (3, 2), (7, -1), (3, 5), (1, -4)]),
        [(1, -4), (3, 7)]
    );
}

#[test]
fn rows_are_added_number_by_number() {
    let sum = added(&vec![(1, 2), (4, 3)], 2, &vec![(0, 1), (4, 2), (9, 1)], -3);
    assert_eq!(sum, Some(vec![(0, -3), (1, 4), (9, -3)]));
    assert_eq!(factor_of(&vec![(0, -3), (9, 8)], 9), 8);
    assert_eq!(factor_of(&vec![(0, -3), (9, 8)], 5), 0);
}

#[test]
fn what_is_too_large_is_no_row() {
    let most = vec![(0, i128::MAX)];
    let one = vec![(0, 1)];
    assert_eq!(added(&most, 1, &one, 0), Some(most.clone()));
    assert_eq!(added(&most, 1, &one, 1), None);
    assert_eq!(added(&most, 2, &one, 0), None);
    assert_eq!(added(&one, 1, &most, 2), None);
    // Its negative would be too large.
    assert_eq!(added(&most, -1, &one, -1), None);
}

#[test]
fn all_rows_are_divided_alike() {
    let (mut left, mut right) = (vec![(0, -12), (1, 18)], vec![(5, 30)]);
    divide_by_common(&mut [&mut left, &mut right]);
    assert_eq!((left, right), (vec![(0, -2), (1, 3)], vec![(5, 5)]));
}

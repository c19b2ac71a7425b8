//! The sums of a fabric: all of them, none twice, small ones first.

use super::{check_answer, sets, term};
use crate::check::judged;
use crate::component::{Component, Kind, MOST_COLOURS};
use crate::equations::{equation, INDEXES};
use crate::fabric::Fabric;
use crate::left::Left;
use crate::listing;
use crate::random::Random;
use crate::random_fabric::{random_fabric, Plan};
use crate::reach::ColourSets;
use crate::samples::{
    credit_loop, credit_terms, doubling_row, full_queues, function_row, looped_queues,
};
use crate::sum_basis::sum_basis;
use crate::terms::{write_proposal, Term};

/// A large prime: integers that are independent modulo it are independent.
const PRIME: i128 = (1 << 61) - 1;

#[test]
fn the_sum_of_the_credit_loop() {
    let mut expected = credit_terms();
    expected.sort_by_key(|term| (term.component, term.index));
    let found = sum_basis(&credit_loop());
    assert_eq!((found.sums, found.left_out), (vec![expected], 0));
}

#[test]
fn no_sum_of_a_row_without_queues() {
    let found = sum_basis(&function_row(128));
    assert_eq!((found.sums, found.left_out), (vec![], 0));
}

#[test]
fn one_sum_for_each_queue_on_itself() {
    let found = sum_basis(&full_queues(128));
    let expected: Vec<_> = (0..128).map(|queue| vec![term(queue, 0, 1)]).collect();
    assert_eq!((found.sums, found.left_out), (expected, 0));
}

/// They are empty, so colour 0 never comes, which is no sum to propose.
#[test]
fn none_that_only_says_that_a_colour_never_comes() {
    let found = sum_basis(&looped_queues(128));
    assert_eq!((found.sums, found.left_out), (vec![], 0));
    assert_eq!(found.never_queued, 128);
}

/// A credit loop in which messages have colour 0 and credits colour 1: the join's index 8 has all colours
/// of both its inputs, of which two never come.
#[test]
fn a_sum_that_needs_the_sets() {
    let mut fabric = credit_loop();
    fabric.colours = 2;
    fabric.components[1].first_map = [0; 8];
    fabric.components[3].second_map = [1, 1, 0, 0, 0, 0, 0, 0];
    fabric.components[5].fill_colour = 1;
    let found = sum_basis(&fabric);
    assert_eq!((found.sums.len(), found.left_out), (1, 0));
    let listing = listing(&fabric.to_file(), &write_proposal(&found.sums[0]));
    assert_eq!(listing, "Q 2 0 1\nQ 5 1 1\nSUM 2\n");
    let left = Left::of(&fabric, &write_proposal(&found.sums[0]));
    assert_eq!(left, Left::Outside);
    // Colour 1 never comes to component 2, nor colour 0 to component 5.
    assert_eq!(found.never_queued, 2);
}

#[test]
fn all_of_random_fabrics_are_accepted_independent_and_all_there_are() {
    let (mut all, mut never) = (0, 0);
    for number in 0..240 {
        let fabric = random_one(number, &[2, 6, 12, 20]);
        let found = sum_basis(&fabric);
        for terms in &found.sums {
            assert_eq!(check_answer(&fabric, terms), (0, 0), "fabric {number}");
        }
        let weights: Vec<Vec<i64>> = weights_of(&fabric, &found.sums);
        let rows = weights.iter().map(|row| wide(row)).collect();
        assert_eq!(rank(rows), found.sums.len(), "fabric {number}");
        let never_queued = never_queued(&fabric);
        assert_eq!(found.never_queued, never_queued, "fabric {number}");
        let there_are = dimension(&fabric) - never_queued;
        assert_eq!(found.sums.len() + found.left_out, there_are, "{number}");
        all += there_are;
        never += never_queued;
    }
    assert!(all > 300, "{all}");
    assert!(never > 2000, "{never}");
}

#[test]
fn the_largest_fabrics_are_accepted_too() {
    let mut all = 0;
    for number in 0..50 {
        let fabric = random_one(number, &[128]);
        let found = sum_basis(&fabric);
        for terms in &found.sums {
            assert_eq!(check_answer(&fabric, terms), (0, 0), "fabric {number}");
        }
        all += found.sums.len();
    }
    assert!(all > 200, "{all}");
}

#[test]
fn small_ones_come_first() {
    let mut steps = 0;
    for number in 0..100 {
        let fabric = random_one(number, &[20, 60]);
        let weights = weights_of(&fabric, &sum_basis(&fabric).sums);
        let sizes: Vec<_> = weights.iter().map(|row| size(row)).collect();
        assert!(sizes.is_sorted(), "fabric {number}: {sizes:?}");
        steps += sizes.windows(2).filter(|pair| pair[0] < pair[1]).count();
    }
    assert!(steps > 100, "{steps}");
}

#[test]
fn none_is_larger_than_its_sum_or_difference_with_another() {
    let mut pairs = 0;
    for number in 0..160 {
        let fabric = random_one(number, &[6, 20]);
        let weights = weights_of(&fabric, &sum_basis(&fabric).sums);
        for (place, row) in weights.iter().enumerate() {
            for other in weights[..place].iter().chain(&weights[place + 1..]) {
                for sign in [1, -1] {
                    let both = row.iter().zip(other);
                    let sum: Vec<i64> = both.map(|(one, next)| one + sign * next).collect();
                    assert!(size(&sum) >= size(row), "fabric {number}");
                    pairs += 1;
                }
            }
        }
    }
    assert!(pairs > 500, "{pairs}");
}

#[test]
fn most_weights_are_positive() {
    for number in 0..100 {
        let fabric = random_one(number, &[6, 20]);
        for row in weights_of(&fabric, &sum_basis(&fabric).sums) {
            let signs = row.iter().map(|weight| weight.signum());
            let balance: i64 = signs.clone().sum();
            let first = signs.clone().find(|sign| *sign != 0);
            assert!(balance > 0 || balance == 0 && first == Some(1), "{row:?}");
        }
    }
}

/// n(last) + 2^(k-1) n(stage 0) + .. + 1 n(stage k-1) + 2^k n(first), up to the sign.
#[test]
fn weights_that_double_are_found_while_they_fit() {
    for stages in [1, 2, 3, 19, 20] {
        let fabric = doubling_row(stages);
        let found = sum_basis(&fabric);
        assert_eq!((found.sums.len(), found.left_out), (1, 0), "{stages}");
        assert_eq!(check_answer(&fabric, &found.sums[0]), (0, 0), "{stages}");
        let mut expected = vec![0; MOST_COLOURS * fabric.components.len()];
        // 2^20 fits a term only if it is below 0.
        let sign = if stages == 20 { -1 } else { 1 };
        expected[MOST_COLOURS] = sign << stages;
        for stage in 0..stages {
            expected[MOST_COLOURS * (3 * stage + 3)] = sign << (stages - 1 - stage);
        }
        expected[MOST_COLOURS * (fabric.components.len() - 1)] = sign;
        assert_eq!(weights_of(&fabric, &found.sums), [expected], "{stages}");
    }
}

#[test]
fn a_sum_that_does_not_fit_is_left_out_and_counted() {
    for stages in [21, 30, 41] {
        let fabric = doubling_row(stages);
        assert_eq!(check_answer(&fabric, &[]), (14, 0), "the fabric is good");
        let found = sum_basis(&fabric);
        assert_eq!((found.sums, found.left_out), (vec![], 1), "{stages}");
    }
}

fn random_one(number: u64, sizes: &[usize]) -> Fabric {
    let random = &mut Random::new(31, number);
    let plan = Plan {
        size: random.pick(sizes),
        colours: random.between(1, MOST_COLOURS),
        circles: false,
    };
    random_fabric(random, &plan)
}

/// As the check has them.
fn weights_of(fabric: &Fabric, sums: &[Vec<Term>]) -> Vec<Vec<i64>> {
    let weights = |terms: &Vec<Term>| judged(fabric, &write_proposal(terms)).map(|sum| sum.weights);
    sums.iter()
        .map(|terms| weights(terms).expect("accepted"))
        .collect()
}

/// How many queues, how many weights, and how large these are in all.
fn size(weights: &[i64]) -> (usize, usize, i64) {
    let queues = weights.chunks(MOST_COLOURS);
    let weighted = queues.filter(|weights| weights.iter().any(|weight| *weight != 0));
    let count = weights.iter().filter(|weight| **weight != 0).count();
    let total = weights.iter().map(|weight| weight.abs()).sum();
    (weighted.count(), count, total)
}

/// How many independent sums there are, for colours that never come included: as many as equations of
/// queues, less what these add to the rank of all others.
fn dimension(fabric: &Fabric) -> usize {
    let sets = ColourSets::of(fabric);
    let numbers = 0..INDEXES * fabric.components.len();
    let (of_queues, others): (Vec<usize>, Vec<usize>) =
        numbers.partition(|number| fabric.components[number / INDEXES].kind == Kind::Queue);
    let rows = |numbers: Vec<usize>| -> Vec<Vec<i128>> {
        let equations = numbers
            .into_iter()
            .filter_map(|number| flows(fabric, &sets, number));
        equations.collect()
    };
    let (of_queues, others) = (rows(of_queues), rows(others));
    let all = [of_queues.clone(), others.clone()].concat();
    of_queues.len() + rank(others) - rank(all)
}

/// How many queues and colours below C there are such that the queue's output does not have the colour.
fn never_queued(fabric: &Fabric) -> usize {
    let sets = sets(fabric);
    let is_queue = |component: &&Component| component.kind == Kind::Queue;
    let queues = fabric.components.iter().filter(is_queue);
    let masks = queues.map(|queue| sets[usize::from(queue.ports[1])]);
    masks
        .map(|mask| fabric.colours - mask.count_ones() as usize)
        .sum()
}

/// Those inside the sets.
fn flows(fabric: &Fabric, sets: &ColourSets, number: usize) -> Option<Vec<i128>> {
    let component = &fabric.components[number / INDEXES];
    let mut row = vec![0; MOST_COLOURS * fabric.channels];
    for (flow, factor) in equation(component, fabric.colours, number % INDEXES)? {
        if sets.has(flow.number()) {
            row[flow.number()] += i128::from(factor);
        }
    }
    Some(row)
}

fn wide(row: &[i64]) -> Vec<i128> {
    row.iter().map(|&factor| i128::from(factor)).collect()
}

/// Modulo the prime.
fn rank(mut rows: Vec<Vec<i128>>) -> usize {
    let mut rank = 0;
    for column in 0..rows.first().map_or(0, Vec::len) {
        let Some(pivot) = (rank..rows.len()).find(|&row| rows[row][column] % PRIME != 0) else {
            continue;
        };
        rows.swap(rank, pivot);
        let (above, below) = rows.split_at_mut(rank + 1);
        let pivot = &above[rank];
        for row in below.iter_mut().filter(|row| row[column] % PRIME != 0) {
            let (times, taken) = (pivot[column], row[column]);
            for (factor, other) in row.iter_mut().zip(pivot) {
                *factor = (*factor * times - other * taken) % PRIME;
            }
        }
        rank += 1;
    }
    rank
}

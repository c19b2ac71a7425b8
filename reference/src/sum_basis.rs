//! The sums of a fabric: small ones from which all others follow.

use crate::equations::INDEXES;
use crate::fabric::Fabric;
use crate::null_space::{is_of_queue, null_space, terms};
use crate::reach::ColourSets;
use crate::sparse::{added, divide_by_common, factor_of, negated, Sparse};
use crate::terms::{Term, MULTIPLIER_BOUND};

/// A bound on the time: ten rounds of reduction are the most that random fabrics took.
const MOST_ROUNDS: usize = 64;

pub struct SumBasis {
    /// The terms of each sum, smallest first: fewest queues, then fewest and smallest weights. None
    /// follows from the others.
    pub sums: Vec<Vec<Term>>,
    /// How many more there are at most whose multipliers were too large. If there are none, each
    /// other sum is a rational combination of these and of sums that only say which colours never
    /// come to a queue.
    pub left_out: usize,
    /// How many sums there are of this sort: one queue and one colour.
    pub never_queued: usize,
}

pub fn sum_basis(fabric: &Fabric) -> SumBasis {
    let found = null_space(fabric, &ColourSets::of(fabric));
    let sum = |multipliers| Sum::new(fabric, multipliers);
    let mut sums: Vec<Sum> = found.with_queues.into_iter().map(sum).collect();
    reduce(fabric, &mut sums);
    let mut sums: Vec<Sum> = sums.into_iter().map(Sum::mostly_positive).collect();
    sums.sort_by(|one, other| one.order().cmp(&other.order()));
    let all = sums.len();
    let sums: Vec<Vec<Term>> = sums.iter().filter_map(Sum::terms).collect();
    SumBasis {
        left_out: found.lost + all - sums.len(),
        never_queued: found.never_queued.len(),
        sums,
    }
}

struct Sum {
    /// Of all equations.
    multipliers: Sparse,
    /// Of the queues' equations alone.
    weights: Sparse,
    size: Size,
}

#[derive(PartialEq, Eq, PartialOrd, Ord)]
struct Size {
    too_large: bool,
    queues: usize,
    weights: usize,
    total: u128,
    terms: usize,
}

impl Sum {
    fn new(fabric: &Fabric, multipliers: Sparse) -> Sum {
        let of_queue = |&&(number, _): &&(usize, i128)| is_of_queue(fabric, number);
        let weights: Sparse = multipliers.iter().filter(of_queue).copied().collect();
        Sum {
            size: Size::of(&multipliers, &weights),
            multipliers,
            weights,
        }
    }

    /// With a sign such that most weights, or as many as not and the first, are above 0.
    fn mostly_positive(self) -> Sum {
        let signs = self.weights.iter().map(|(_, weight)| weight.signum());
        let balance: i128 = signs.sum();
        if balance > 0 || balance == 0 && self.weights[0].1 > 0 {
            return self;
        }
        Sum {
            multipliers: negated(&self.multipliers),
            weights: negated(&self.weights),
            size: self.size,
        }
    }

    /// By size, then with fewer weights below 0, then by number.
    fn order(&self) -> impl Ord + '_ {
        let negative = self.weights.iter().filter(|(_, weight)| *weight < 0);
        (&self.size, negative.count(), &self.weights)
    }

    /// 21 bits hold one number more below 0 than above. `None` if it fits with neither sign.
    fn terms(&self) -> Option<Vec<Term>> {
        terms(&self.multipliers).or_else(|| terms(&negated(&self.multipliers)))
    }
}

impl Size {
    fn of(multipliers: &Sparse, weights: &Sparse) -> Size {
        let bound = MULTIPLIER_BOUND as u128;
        let mut sizes = multipliers.iter().map(|(_, it)| it.unsigned_abs());
        let weight_sizes = weights.iter().map(|(_, weight)| weight.unsigned_abs());
        let queues = weights.chunk_by(|(one, _), (next, _)| one / INDEXES == next / INDEXES);
        Size {
            too_large: sizes.any(|size| size > bound),
            queues: queues.count(),
            weights: weights.len(),
            total: weight_sizes.fold(0, u128::saturating_add),
            terms: multipliers.len(),
        }
    }
}

/// Adds multiples of the sums to each other for as long as that makes one smaller. Each is only
/// replaced by itself and a multiple of another, so all sums still follow from them.
fn reduce(fabric: &Fabric, sums: &mut [Sum]) {
    let mut changed = vec![true; sums.len()];
    let mut rounds = 0..MOST_ROUNDS;
    while changed.contains(&true) && rounds.next().is_some() {
        let before = std::mem::replace(&mut changed, vec![false; sums.len()]);
        for place in 0..sums.len() {
            for other in (0..sums.len()).filter(|&other| other != place) {
                // Two that were tried and are as they were need no other try.
                let new = |it: usize| before[it] || changed[it];
                if !new(place) && !new(other) {
                    continue;
                }
                if let Some(smaller) = smaller(fabric, &sums[place], &sums[other]) {
                    sums[place] = smaller;
                    changed[place] = true;
                }
            }
        }
    }
}

/// The smallest of the sum and a multiple of the other that is smaller than the sum.
fn smaller(fabric: &Fabric, sum: &Sum, other: &Sum) -> Option<Sum> {
    let with = |times: i128| {
        let mut multipliers = added(&sum.multipliers, 1, &other.multipliers, times)?;
        divide_by_common(&mut [&mut multipliers]);
        Some(Sum::new(fabric, multipliers))
    };
    let tried = multiples(&sum.weights, &other.weights);
    let all = tried.into_iter().filter_map(with);
    let smallest = all.min_by(|one, next| one.size.cmp(&next.size));
    smallest.filter(|smallest| smallest.size < sum.size)
}

/// What to take of the other: the multiple that cancels most weights, and once each way. None if
/// the two share no queue and colour.
fn multiples(weights: &Sparse, others: &Sparse) -> Vec<i128> {
    let mut shared = false;
    let mut cancelling = Vec::new();
    for &(number, weight) in weights {
        let other = factor_of(others, number);
        shared |= other != 0;
        if other != 0 && weight % other == 0 {
            cancelling.push(-weight / other);
        }
    }
    cancelling.sort_unstable();
    let equal = cancelling.chunk_by(|one, next| one == next);
    let most = equal.max_by_key(|equal| equal.len());
    let most = most.map(|equal| equal[0]);
    match shared {
        true => most.into_iter().chain([1, -1]).collect(),
        false => Vec::new(),
    }
}

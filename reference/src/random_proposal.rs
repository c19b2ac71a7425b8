//! Random proposals in which all flows cancel, or all inside the colour sets.

use std::collections::BTreeMap;

use crate::equations::{equation, INDEXES};
use crate::fabric::Fabric;
use crate::null_space::{null_space, terms};
use crate::random::Random;
use crate::reach::ColourSets;
use crate::sparse::Sparse;
use crate::terms::{fits, Term, MOST_TERMS, MULTIPLIER_BOUND};

/// A component and an index of it.
type Name = (usize, usize);

/// The equations of a fabric, and groups of combinations of them that check does not refuse for a flow.
pub struct Equations {
    names: Vec<Name>,
    /// None is empty.
    groups: Vec<Vec<Vec<Term>>>,
}

impl Equations {
    /// Three groups, if none is empty: with queues, all flows inside the sets cancel; colours that never
    /// come to a queue, and combinations without queues; all flows cancel.
    pub fn of(fabric: &Fabric) -> Equations {
        let inside = null_space(fabric, &ColourSets::of(fabric));
        let last = [inside.never_queued, inside.without_queues].concat();
        let everywhere = Equations::everywhere(fabric).groups;
        let mut groups = vec![of_terms(&inside.with_queues), of_terms(&last)];
        groups.extend(everywhere);
        Equations::in_groups(fabric, groups)
    }

    /// In all of the combinations all flows cancel.
    pub fn everywhere(fabric: &Fabric) -> Equations {
        let found = null_space(fabric, &ColourSets::full(fabric));
        let all = [found.without_queues, found.with_queues].concat();
        Equations::in_groups(fabric, vec![of_terms(&all)])
    }

    fn in_groups(fabric: &Fabric, mut groups: Vec<Vec<Vec<Term>>>) -> Equations {
        groups.retain(|group| !group.is_empty());
        let exists = |&(component, index): &Name| {
            let component = &fabric.components[component];
            equation(component, fabric.colours, index).is_some()
        };
        let numbers = 0..INDEXES * fabric.components.len();
        let names = numbers.map(|number| (number / INDEXES, number % INDEXES));
        Equations {
            names: names.filter(exists).collect(),
            groups,
        }
    }

    /// `None` if there are no equations.
    pub fn pick(&self, random: &mut Random) -> Option<Name> {
        (!self.names.is_empty()).then(|| random.pick(&self.names))
    }

    /// Terms of some combinations, none if there are none. Often equal terms are split and terms
    /// without effect are added, up to as many as there may be, in any order.
    pub fn cancelling_terms(&self, random: &mut Random) -> Vec<Term> {
        if self.groups.is_empty() {
            return Vec::new();
        }
        let plain = self.pick_combination(random).to_vec();
        if random.percent(30) {
            return plain;
        }
        let totals = self.random_totals(random);
        let mut terms = split(random, &totals);
        if terms.len() > MOST_TERMS {
            return plain;
        }
        let spare = MOST_TERMS - terms.len();
        let added = match random.below(10) {
            0 => spare,
            1..6 => random.between(0, spare.min(60)),
            _ => 0,
        };
        self.add_idle_terms(random, &mut terms, added);
        random.shuffle(&mut terms);
        terms
    }

    /// One of the groups, whatever its size, and one of its combinations. There is a group.
    fn pick_combination(&self, random: &mut Random) -> &[Term] {
        let group = &self.groups[random.below(self.groups.len())];
        &group[random.below(group.len())]
    }

    /// Terms of a combination and terms without effect, together just so many, in any order. `None`
    /// if that is too few.
    pub fn just_so_many(&self, random: &mut Random, count: usize) -> Option<Vec<Term>> {
        let all = self.groups.iter().flatten();
        let short: Vec<_> = all.filter(|terms| terms.len() <= count).collect();
        if short.is_empty() {
            return None;
        }
        let mut terms = random.pick(&short).clone();
        let added = count - terms.len();
        self.add_idle_terms(random, &mut terms, added);
        random.shuffle(&mut terms);
        Some(terms)
    }

    /// The multiplier of each equation in some combinations together.
    fn random_totals(&self, random: &mut Random) -> BTreeMap<Name, i64> {
        let mut totals = BTreeMap::new();
        for _ in 0..random.pick(&[1, 1, 2, 5]) {
            let times = match random.below(10) {
                0..5 => 1,
                5 => -1,
                6..9 => random.between(0, 10) as i64 - 5,
                _ => random.between(0, 1 << 22) as i64 - (1 << 21),
            };
            for term in self.pick_combination(random) {
                let total: &mut i64 = totals.entry((term.component, term.index)).or_default();
                *total += times * term.multiplier;
            }
        }
        totals
    }

    /// Terms with multiplier 0, and pairs that take each other away.
    fn add_idle_terms(&self, random: &mut Random, terms: &mut Vec<Term>, count: usize) {
        let full = terms.len() + count;
        while terms.len() < full {
            let name = random.pick(&self.names);
            let size = random.below(MULTIPLIER_BOUND as usize) as i64;
            if terms.len() + 2 <= full && random.percent(70) {
                terms.extend([term(name, size), term(name, -size)]);
            } else {
                terms.push(term(name, 0));
            }
        }
    }
}

/// Those whose multipliers fit.
fn of_terms(combinations: &[Sparse]) -> Vec<Vec<Term>> {
    combinations.iter().filter_map(terms).collect()
}

fn term((component, index): Name, multiplier: i64) -> Term {
    Term {
        component,
        index,
        multiplier,
    }
}

/// As many terms for each total as it takes, some of them more.
fn split(random: &mut Random, totals: &BTreeMap<Name, i64>) -> Vec<Term> {
    let mut terms = Vec::new();
    for (&name, &total) in totals {
        let mut left = total;
        while !fits(left) || random.percent(20) {
            let part = if fits(left) {
                random.below(MULTIPLIER_BOUND as usize) as i64 * left.signum() / 2
            } else {
                left.clamp(-MULTIPLIER_BOUND, MULTIPLIER_BOUND - 1)
            };
            terms.push(term(name, part));
            left -= part;
        }
        terms.push(term(name, left));
    }
    terms
}

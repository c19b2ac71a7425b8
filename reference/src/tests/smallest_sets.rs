//! The sets of random fabrics are closed under the rules, and each member has to be there.

use std::collections::HashSet;

use super::{fabric_of, sets};
use crate::component::{Component, Kind, MOST_COLOURS};
use crate::fabric::Fabric;
use crate::random::Random;

/// A channel and a colour.
type Pair = (u8, usize);

/// With what it needs in the sets, what it gives is there too.
struct Rule {
    needs: Vec<Pair>,
    gives: Pair,
}

#[test]
fn what_a_rule_gives_is_there() {
    let (mut used, mut not_used) = (0, 0);
    for_random_fabrics(|number, members, rules| {
        for rule in rules {
            if rule.holds_by(&members) {
                let Rule { needs, gives } = rule;
                assert!(members.contains(&gives), "{number}: {needs:?} {gives:?}");
                used += 1;
            } else {
                not_used += 1;
            }
        }
    });
    assert!(used > 20_000, "{used}");
    assert!(not_used > 100_000, "{not_used}");
}

/// From nothing, so what needs nothing stands in the first round. In many fabrics there are larger sets
/// too in which each member has a ground: some are each other's.
#[test]
fn each_member_has_a_ground_in_the_rounds_before() {
    let (mut most_rounds, mut larger) = (0, 0);
    for_random_fabrics(|number, members, rules| {
        let (grounded, rounds) = settled(&rules, HashSet::new());
        let mut others = members.difference(&grounded);
        assert_eq!(others.next(), None, "fabric {number}");
        most_rounds = most_rounds.max(rounds);
        let all = rules.iter().map(|rule| rule.gives).collect();
        let (largest, _) = settled(&rules, all);
        larger += u32::from(largest.len() > members.len());
    });
    assert!(most_rounds > 20, "{most_rounds}");
    assert!(larger > 100, "{larger}");
}

/// What rounds of the rules come to from these pairs on, and how many change something.
fn settled(rules: &[Rule], mut pairs: HashSet<Pair>) -> (HashSet<Pair>, usize) {
    let mut rounds = 0;
    loop {
        let next = given(rules, &pairs);
        if next == pairs {
            return (pairs, rounds);
        }
        pairs = next;
        rounds += 1;
    }
}

fn given(rules: &[Rule], members: &HashSet<Pair>) -> HashSet<Pair> {
    let holding = rules.iter().filter(|rule| rule.holds_by(members));
    holding.map(|rule| rule.gives).collect()
}

/// With the members of the sets, and the rules of all components.
fn for_random_fabrics(mut look: impl FnMut(u64, HashSet<Pair>, Vec<Rule>)) {
    for number in 0..200 {
        let fabric = fabric_of(&mut Random::new(41, number));
        let rules = fabric.components.iter().flat_map(rules_of).collect();
        look(number, members(&fabric), rules);
    }
}

/// As the mask bytes have them.
fn members(fabric: &Fabric) -> HashSet<Pair> {
    let mut members = HashSet::new();
    for (channel, mask) in (0..).zip(sets(fabric)) {
        let there = colours().filter(|d| names(mask, *d));
        members.extend(there.map(|d| (channel, d)));
    }
    members
}

fn colours() -> impl Iterator<Item = usize> {
    0..MOST_COLOURS
}

/// Colour 0 is the highest bit.
fn names(mask: u8, colour: usize) -> bool {
    mask >> (7 - colour) & 1 == 1
}

impl Rule {
    fn new(needs: &[Pair], gives: Pair) -> Rule {
        Rule {
            needs: needs.to_vec(),
            gives,
        }
    }

    fn holds_by(&self, members: &HashSet<Pair>) -> bool {
        self.needs.iter().all(|pair| members.contains(pair))
    }
}

/// One for each colour of an input, or two colours at a join.
fn rules_of(component: &Component) -> Vec<Rule> {
    let [a, b, c] = component.ports;
    let first = |d: usize| usize::from(component.first_map[d]);
    let second = |d: usize| usize::from(component.second_map[d]);
    let named = |d: usize| names(component.mask, d);
    let mut rules = Vec::new();
    for d in colours() {
        let mut rule = |needs: &[Pair], gives| rules.push(Rule::new(needs, gives));
        match component.kind {
            Kind::Source if named(d) => rule(&[], (a, d)),
            Kind::Source | Kind::Sink => {}
            Kind::Queue => {
                rule(&[(a, d)], (b, d));
                if component.filling > 0 && d == usize::from(component.fill_colour) {
                    rule(&[], (b, d));
                }
            }
            Kind::Function => rule(&[(a, d)], (b, first(d))),
            Kind::Fork => {
                rule(&[(a, d)], (b, first(d)));
                rule(&[(a, d)], (c, second(d)));
            }
            Kind::Join => colours().for_each(|of_b| rule(&[(a, d), (b, of_b)], (c, first(d)))),
            Kind::Switch if named(d) => rule(&[(a, d)], (b, d)),
            Kind::Switch => rule(&[(a, d)], (c, d)),
            Kind::Merge => {
                rule(&[(a, d)], (c, d));
                rule(&[(b, d)], (c, d));
            }
        }
    }
    rules
}

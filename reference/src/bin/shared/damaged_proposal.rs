//! Random proposals: such as are not refused for a flow, near misses of them, and others.

use reference::random::Random;
use reference::random_proposal::Equations;
use reference::terms::{write_proposal, Term, MOST_TERMS, TERM};

pub fn random_proposal(random: &mut Random, equations: &Equations) -> Vec<u8> {
    if random.percent(5) {
        return odd_length(random, equations);
    }
    write_proposal(&random_terms(random, equations))
}

/// As many terms as there may be at the most.
pub fn random_terms(random: &mut Random, equations: &Equations) -> Vec<Term> {
    match random.below(95) {
        0..45 => equations.cancelling_terms(random),
        45..75 => near_miss(random, equations),
        75..85 => terms_of_any_equation(random, equations),
        85..90 => without_effect(random, equations),
        _ => noise(random),
    }
}

/// One term off.
fn near_miss(random: &mut Random, equations: &Equations) -> Vec<Term> {
    let mut terms = equations.cancelling_terms(random);
    if terms.is_empty() {
        return terms;
    }
    let place = random.below(terms.len());
    let term = &mut terms[place];
    match random.below(7) {
        0 => term.multiplier = (term.multiplier + 1).min(0xF_FFFF),
        1 => term.multiplier = (term.multiplier - 1).max(-0x10_0000),
        2 => term.index = random.below(16),
        3 => term.component = random.below(128),
        4 => term.multiplier = 0,
        5 => {
            terms.remove(place);
        }
        _ => {
            let copy = *term;
            terms.insert(place, copy);
            terms.truncate(MOST_TERMS);
        }
    }
    terms
}

fn terms_of_any_equation(random: &mut Random, equations: &Equations) -> Vec<Term> {
    let count = random.pick(&[1, 2, 10, 300]);
    let picked = (0..count).filter_map(|_| {
        let (component, index) = equations.pick(random)?;
        Some(Term {
            component,
            index,
            multiplier: random_multiplier(random),
        })
    });
    picked.collect()
}

/// No terms, or such that each weight is 0 and all flows cancel.
fn without_effect(random: &mut Random, equations: &Equations) -> Vec<Term> {
    let mut terms = match random.below(4) {
        0 => Vec::new(),
        1 => equations.cancelling_terms(random),
        _ => terms_of_any_equation(random, equations),
    };
    terms.truncate(MOST_TERMS / 2);
    if random.percent(50) {
        terms.iter_mut().for_each(|term| term.multiplier = 0);
        return terms;
    }
    let opposite = |term: &Term| Term {
        multiplier: (-term.multiplier).min(0xF_FFFF),
        ..*term
    };
    let opposites: Vec<Term> = terms.iter().map(opposite).collect();
    terms.extend(opposites);
    random.shuffle(&mut terms);
    terms
}

/// Terms of any components and indexes.
fn noise(random: &mut Random) -> Vec<Term> {
    let components = random.pick(&[2, 10, 128]);
    let count = random.pick(&[1, 2, 5, 4096]);
    let any = (0..count).map(|_| Term {
        component: random.below(components),
        index: random.below(16),
        multiplier: random_multiplier(random),
    });
    any.collect()
}

/// Not whole terms, or more than there may be.
fn odd_length(random: &mut Random, equations: &Equations) -> Vec<u8> {
    let mut proposal = write_proposal(&equations.cancelling_terms(random));
    let changed = match random.below(4) {
        0 => TERM * MOST_TERMS + random.between(0, 5),
        1 => proposal.len().saturating_sub(random.between(1, 3)),
        2 => TERM * MOST_TERMS + TERM * random.between(1, 200),
        _ => proposal.len() + random.between(1, 3),
    };
    proposal.resize(changed, 0);
    proposal
}

fn random_multiplier(random: &mut Random) -> i64 {
    match random.below(4) {
        0 => random.pick(&[1, -1, 0xF_FFFF, -0x10_0000]),
        1 => random.between(0, 10) as i64 - 5,
        _ => random.between(0, 0x1F_FFFF) as i64 - 0x10_0000,
    }
}

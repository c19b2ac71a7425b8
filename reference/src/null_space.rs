//! Integer combinations of equations in which all flows inside given sets cancel, by exact
//! elimination.

use std::collections::HashMap;

use crate::component::Kind;
use crate::equations::{equation, Flow, INDEXES};
use crate::fabric::Fabric;
use crate::reach::ColourSets;
use crate::sparse::{added, collected, divide_by_common, Sparse};
use crate::terms::{fits, Term};

/// Combinations in which all flows inside the sets cancel, each the multipliers of the equations,
/// which are numbered 16 times their component plus their index. Each other such combination is a
/// rational combination of them, unless some were lost.
#[derive(Default)]
pub struct NullSpace {
    /// No equation of a queue stands in them.
    pub without_queues: Vec<Sparse>,
    /// Each is one equation of a queue, for a colour that never comes there.
    pub never_queued: Vec<Sparse>,
    /// In each stands a queue's equation that stands in no other, so none of the sums that they
    /// give follows from the others. Each is for a colour that is in the set of the queue's output.
    pub with_queues: Vec<Sparse>,
    /// How many equations were given up since factors grew too large; each takes one combination
    /// away at most.
    pub lost: usize,
}

pub fn null_space(fabric: &Fabric, sets: &ColourSets) -> NullSpace {
    let mut found = NullSpace::default();
    let mut by_lowest_flow = HashMap::new();
    for number in equations_of_queues_last(fabric) {
        let Some(one) = Combination::of_one(fabric, sets, number) else {
            continue;
        };
        match one.reduced(&by_lowest_flow) {
            None => found.lost += 1,
            Some(Combination { flows, multipliers }) if flows.is_empty() => {
                let group = match is_of_queue(fabric, number) {
                    true if !comes(fabric, sets, number) => &mut found.never_queued,
                    true => &mut found.with_queues,
                    false => &mut found.without_queues,
                };
                group.push(multipliers);
            }
            Some(left) => {
                by_lowest_flow.insert(left.flows[0].0, left);
            }
        }
    }
    found
}

pub fn is_of_queue(fabric: &Fabric, number: usize) -> bool {
    fabric.components[number / INDEXES].kind == Kind::Queue
}

/// Whether the colour of a queue's equation is in the set of its output. If not, it is not in that of
/// its input either.
fn comes(fabric: &Fabric, sets: &ColourSets, number: usize) -> bool {
    let [_, channel, _] = fabric.components[number / INDEXES].ports;
    let colour = number % INDEXES;
    sets.has(Flow { channel, colour }.number())
}

/// `None` if a multiplier does not fit a term.
pub fn terms(multipliers: &Sparse) -> Option<Vec<Term>> {
    let term = |&(number, multiplier): &(usize, i128)| {
        Some(Term {
            component: number / INDEXES,
            index: number % INDEXES,
            multiplier: i64::try_from(multiplier).ok().filter(|&it| fits(it))?,
        })
    };
    multipliers.iter().map(term).collect()
}

/// The numbers of all equations that there may be.
fn equations_of_queues_last(fabric: &Fabric) -> Vec<usize> {
    let mut numbers: Vec<usize> = (0..INDEXES * fabric.components.len()).collect();
    numbers.sort_by_key(|&number| is_of_queue(fabric, number));
    numbers
}

/// What is left of each flow inside the sets, and the multiplier of each equation.
struct Combination {
    flows: Sparse,
    multipliers: Sparse,
}

impl Combination {
    /// `None` if there is no such equation.
    fn of_one(fabric: &Fabric, sets: &ColourSets, number: usize) -> Option<Combination> {
        let component = &fabric.components[number / INDEXES];
        let equation = equation(component, fabric.colours, number % INDEXES)?;
        let inside = equation
            .into_iter()
            .filter(|(flow, _)| sets.has(flow.number()));
        let flows = inside.map(|(flow, factor)| (flow.number(), i128::from(factor)));
        Some(Combination {
            flows: collected(flows.collect()),
            multipliers: vec![(number, 1)],
        })
    }

    /// Takes multiples of the others away until no flow is left, or the lowest is the lowest of no
    /// other. `None` if a factor grows too large.
    fn reduced(mut self, by_lowest_flow: &HashMap<usize, Combination>) -> Option<Combination> {
        while let Some(&(lowest, factor)) = self.flows.first() {
            let Some(other) = by_lowest_flow.get(&lowest) else {
                break;
            };
            let times = other.flows[0].1;
            self = Combination {
                flows: added(&self.flows, times, &other.flows, -factor)?,
                multipliers: added(&self.multipliers, times, &other.multipliers, -factor)?,
            };
            divide_by_common(&mut [&mut self.flows, &mut self.multipliers]);
        }
        Some(self)
    }
}

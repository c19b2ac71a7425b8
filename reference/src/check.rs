//! The check of a proposed sum.

use crate::component::{Kind, MOST_COLOURS};
use crate::entries::{write_entries, ENTRY};
use crate::equations::equation;
use crate::fabric::Fabric;
use crate::packed::read_file;
use crate::reach::ColourSets;
use crate::refusal::Refusal;
use crate::state::{count_of, ComponentState};
use crate::terms::read_proposal;

/// How many bytes the weights of a fabric take.
pub fn weights_length(components: usize) -> usize {
    ENTRY * MOST_COLOURS * components
}

/// Writes the weights of an accepted proposal and hands back its constant K.
pub fn check(file: &[u8], proposal: &[u8], weights: &mut [u8]) -> Result<i64, Refusal> {
    let sum = accepted_sum(file, proposal)?;
    let entries = weights
        .get_mut(..ENTRY * sum.weights.len())
        .ok_or(Refusal::ResultSpace)?;
    write_entries(entries, &sum.weights);
    Ok(sum.constant)
}

/// An invariant: a weighted sum over the queues that every step keeps.
pub struct Sum {
    /// Entry 8 times q plus d is the weight of n(q,d), other entries 0.
    pub weights: Vec<i64>,
    pub constant: i64,
}

impl Sum {
    /// Each component and colour with its weight, ascending.
    pub fn entries(&self) -> impl Iterator<Item = (usize, usize, i64)> + '_ {
        let entries = self.weights.iter().enumerate();
        entries.map(|(entry, &weight)| (entry / MOST_COLOURS, entry % MOST_COLOURS, weight))
    }

    /// Weight times n(q,d), added up over all queues and colours.
    pub fn value(&self, states: &[ComponentState]) -> i64 {
        let products = self
            .entries()
            .map(|(q, d, weight)| weight * count_of(&states[q], d) as i64);
        products.sum()
    }
}

/// Refusals 1 to 8 and 11 to 14, in this order.
pub fn accepted_sum(file: &[u8], proposal: &[u8]) -> Result<Sum, Refusal> {
    judged(&read_file(file)?, proposal)
}

/// Refusals 11 to 14, in this order.
pub fn judged(fabric: &Fabric, proposal: &[u8]) -> Result<Sum, Refusal> {
    let Totals { flows, weights } = added_up(fabric, proposal)?;
    if let Some(flow) = flow_left(fabric, &flows) {
        return Err(Refusal::FlowLeft { flow });
    }
    if weights.iter().all(|&weight| weight == 0) {
        return Err(Refusal::NoWeight);
    }
    let constant = constant(fabric, &weights);
    Ok(Sum { weights, constant })
}

/// What all terms of a proposal add up to.
pub struct Totals {
    /// By the number of a flow, what is left of it.
    pub flows: Vec<i64>,
    /// Entry 8 times q plus d is the weight of n(q,d), other entries 0.
    weights: Vec<i64>,
}

/// Refusals 11 and 12, in this order.
pub fn added_up(fabric: &Fabric, proposal: &[u8]) -> Result<Totals, Refusal> {
    let mut flows = vec![0; MOST_COLOURS * fabric.channels];
    let mut weights = vec![0; MOST_COLOURS * fabric.components.len()];
    for (place, term) in read_proposal(proposal)?.enumerate() {
        let no_equation = Refusal::NoEquation { term: place };
        let component = fabric.components.get(term.component).ok_or(no_equation)?;
        let equation = equation(component, fabric.colours, term.index).ok_or(no_equation)?;
        // A flow cancels if, over all terms, the multiplier times the factor adds up to 0.
        for (flow, factor) in equation {
            flows[flow.number()] += term.multiplier * factor;
        }
        // The weight of n(q,d) is the sum of the multipliers of the terms that name q and d.
        if component.kind == Kind::Queue {
            weights[MOST_COLOURS * term.component + term.index] += term.multiplier;
        }
    }
    Ok(Totals { flows, weights })
}

/// The lowest flow inside the colour sets that does not cancel; a leftover flow outside is ignored.
fn flow_left(fabric: &Fabric, flows: &[i64]) -> Option<usize> {
    let mut left = (0..flows.len()).filter(|&flow| flows[flow] != 0).peekable();
    // The sets are worked out only where a flow is left.
    left.peek()?;
    let sets = ColourSets::of(fabric);
    left.find(|&flow| sets.has(flow))
}

/// K is the sum of weight times n0.
fn constant(fabric: &Fabric, weights: &[i64]) -> i64 {
    let queues = fabric.components.iter().enumerate();
    queues
        .map(|(q, queue)| {
            let weight = weights[MOST_COLOURS * q + usize::from(queue.fill_colour)];
            weight * i64::from(queue.filling)
        })
        .sum()
}

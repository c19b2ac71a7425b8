//! Refusals of a proposal, 11 to 14, and of a file of proposals, 33.

use reference::equations::{equation, INDEXES};
use reference::netlist::Netlist;
use reference::proposal_text::write_term;
use reference::terms::{read_proposal, Term, MOST_TERMS, TERM};
use reference::Kind;

use super::equations::colour;
use super::{listed, number_and_place};
use crate::calls::Refused;

/// So many terms with the flow that is left are said.
const MOST_SAID: usize = 5;

/// A proposal that check refuses for the netlist.
pub fn of_proposal(refused: Refused, proposal: &[u8], netlist: &Netlist) -> String {
    let terms: Vec<Term> = read_proposal(proposal)
        .map(Iterator::collect)
        .unwrap_or_default();
    let place = refused.place as usize;
    let said = match refused.number {
        11 => length(proposal.len()),
        12 => no_equation(netlist, place, &terms[place]),
        13 => flow_left(netlist, place, &terms),
        14 => no_weight(netlist, &terms),
        _ => "refused".to_string(),
    };
    format!("{said} {}", number_and_place(refused))
}

/// A file of proposals that check_many refuses.
pub fn of_file(refused: Refused) -> String {
    let said = match refused.number {
        33 => "this is no row of at most 64 whole proposals of at most 4096 terms",
        _ => "refused",
    };
    format!("{said} {}", number_and_place(refused))
}

fn length(bytes: usize) -> String {
    if !bytes.is_multiple_of(TERM) {
        return format!("{bytes} bytes are no terms of {TERM} bytes");
    }
    let terms = bytes / TERM;
    format!("{terms} terms are more than {MOST_TERMS}")
}

fn no_equation(netlist: &Netlist, place: usize, term: &Term) -> String {
    let (fabric, names) = (&netlist.fabric, &netlist.names);
    let Some(component) = fabric.components.get(term.component) else {
        let last = fabric.components.len() - 1;
        return format!(
            "term {place}: there is no component {}; the last is {last}",
            term.component
        );
    };
    let text = write_term(term, &names.components);
    let (kind, name) = (component.kind.name(), &names.components[term.component]);
    let exists = |index: &usize| equation(component, fabric.colours, *index).is_some();
    let there: Vec<String> = (0..INDEXES)
        .filter(exists)
        .map(|it| it.to_string())
        .collect();
    let missing = match (there.as_slice(), component.kind) {
        ([], Kind::Source) => "has no equation, since it emits all colours".to_string(),
        ([], _) => "has no equation".to_string(),
        (there, _) => format!("has no equation {}; it has {}", term.index, listed(there)),
    };
    format!("term {place}: {text}: {kind} '{name}' {missing}")
}

fn flow_left(netlist: &Netlist, flow: usize, terms: &[Term]) -> String {
    let (channel, d) = (flow / 8, flow % 8);
    let names = &netlist.names;
    let of_colour = match names.colours.len() {
        1 => String::new(),
        _ => format!(" of {}", colour(names, d)),
    };
    let parts = parts(netlist, flow, terms);
    let mut said: Vec<String> = parts
        .iter()
        .take(MOST_SAID)
        .map(|&(place, part)| {
            let text = write_term(&terms[place], &names.components);
            format!("{part} in term {place} ({text})")
        })
        .collect();
    if parts.len() > MOST_SAID {
        said.push(format!("and {} more", parts.len() - MOST_SAID));
    }
    let all: i64 = parts.iter().map(|(_, part)| part).sum();
    let in_all = match parts.len() {
        1 => String::new(),
        _ => format!("{all} in all: "),
    };
    let (channel, said) = (&names.channels[channel], said.join(", "));
    format!("the flow{of_colour} on '{channel}' is left: {in_all}{said}")
}

/// What each term in which the flow stands has of it.
fn parts(netlist: &Netlist, flow: usize, terms: &[Term]) -> Vec<(usize, i64)> {
    let fabric = &netlist.fabric;
    let part = |term: &Term| {
        let component = &fabric.components[term.component];
        let flows = equation(component, fabric.colours, term.index).unwrap_or_default();
        let here = flows.iter().filter(|(other, _)| other.number() == flow);
        term.multiplier * here.map(|(_, factor)| factor).sum::<i64>()
    };
    let parts = terms.iter().map(part).enumerate();
    parts.filter(|(_, part)| *part != 0).collect()
}

fn no_weight(netlist: &Netlist, terms: &[Term]) -> String {
    let of_queue = |term: &Term| netlist.fabric.components[term.component].kind == Kind::Queue;
    if terms.is_empty() {
        return "there are no terms, so no queue has a weight".to_string();
    }
    if !terms.iter().any(of_queue) {
        return "no term is of a queue, so no queue has a weight".to_string();
    }
    "no queue keeps a weight other than 0".to_string()
}

//! The accepted sums, each with its value now.

use reference::Kind;

use super::line::{wrapped, Line, Span, BOLD};
use crate::calls::Checked;
use crate::step::session::Session;

pub fn lines(session: &Session, room: usize) -> Vec<Line> {
    if session.sums.accepted.is_empty() {
        return vec![vec![Span::plain(why_none(session))]];
    }
    let sums = session.sums.accepted.iter();
    sums.flat_map(|sum| of_sum(session, sum, room)).collect()
}

fn why_none(session: &Session) -> &'static str {
    let components = &session.opened.netlist.fabric.components;
    if !components.iter().any(|it| it.kind == Kind::Queue) {
        return "no sums, since there is no queue";
    }
    match session.sums.refused {
        0 => "no sums yet: 'panel propose' finds them",
        _ => "the sums here are refused: 'panel check' says why",
    }
}

fn of_sum(session: &Session, sum: &Checked, room: usize) -> Vec<Line> {
    let netlist = &session.opened.netlist;
    let equation = sum.equation(netlist);
    let words = equation.split(' ').map(Span::plain);
    let now = format!("  now {}", sum.value(netlist, &session.walk.state));
    wrapped(Vec::new(), words.chain([Span::new(now, BOLD)]), room)
}

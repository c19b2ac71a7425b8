//! The choosers: what each chose and chooses, and what it holds.

use reference::netlist::Netlist;
use reference::state::{colour_or_none, COMPONENT_STATE};
use reference::Kind;

use super::line::{Line, Span, Style, PLAIN};
use super::packets::{packet_or_nothing, yes_or_no, NOTHING};
use super::table::Table;
use super::{LAST_STEP, NEXT_STEP};
use crate::step::choosers::word;
use crate::step::one_step::OneStep;
use crate::step::session::Session;

pub fn lines(session: &Session, selected: Option<usize>, room: usize) -> Vec<Line> {
    if session.choosers.is_empty() {
        return Vec::new();
    }
    let Netlist { fabric, names } = &session.opened.netlist;
    let walk = &session.walk;
    let mut table = Table::new(&["chooser", "name", LAST_STEP, NEXT_STEP, "holds"]);
    for (place, &chooser) in session.choosers.iter().enumerate() {
        let choice = |step: &OneStep| choice(&session.opened.netlist, chooser, step);
        let mut next = choice(&walk.next);
        next.style.reverse = selected == Some(place);
        table.row(vec![
            Span::plain(fabric.components[chooser].kind.name()),
            Span::plain(&names.components[chooser]),
            walk.last.as_ref().map_or(Span::plain(""), choice),
            next,
            held(&session.opened.netlist, chooser, &walk.state),
        ]);
    }
    table.mark(selected);
    table.lines(room)
}

fn choice(netlist: &Netlist, chooser: usize, step: &OneStep) -> Span {
    let byte = step.choices[chooser];
    let kind = netlist.fabric.components[chooser].kind;
    let colour = colour_or_none(byte).filter(|_| kind == Kind::Source);
    Span::new(word(netlist, chooser, byte), Style { colour, ..PLAIN })
}

/// The colour that a source holds, whether a sink holds, the input whose pick a merge holds.
fn held(netlist: &Netlist, chooser: usize, state: &[u8]) -> Span {
    let byte = state[COMPONENT_STATE * chooser];
    match netlist.fabric.components[chooser].kind {
        Kind::Source => packet_or_nothing(netlist, colour_or_none(byte)),
        Kind::Sink => yes_or_no(byte == 1),
        // 1 for A, 2 for B: one more than the choice of that input.
        _ => {
            let held = byte.checked_sub(1);
            Span::plain(held.map_or(NOTHING, |choice| word(netlist, chooser, choice)))
        }
    }
}

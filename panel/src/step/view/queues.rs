//! The queues: how many packets each has, and which, front first.

use reference::netlist::Netlist;
use reference::state::{content, COMPONENT_STATE};
use reference::Kind;

use super::line::{wrapped, Line, Span, BOLD};
use super::packets::packet;
use super::table::Table;
use crate::step::session::Session;

pub fn lines(session: &Session, room: usize) -> Vec<Line> {
    let netlist = &session.opened.netlist;
    let Netlist { fabric, names } = netlist;
    let (states, _) = session.walk.state.as_chunks::<COMPONENT_STATE>();
    let mut table = Table::new(&["queue", "count"]);
    let mut contents = vec![vec![Span::new("front first", BOLD)]];
    for ((component, name), state) in fabric.components.iter().zip(&names.components).zip(states) {
        if component.kind == Kind::Queue {
            let packets = content(state);
            let count = format!("{} of {}", packets.len(), component.capacity);
            table.row(vec![Span::plain(name), Span::plain(count)]);
            contents.push(
                packets
                    .iter()
                    .map(|&colour| packet(netlist, colour))
                    .collect(),
            );
        }
    }
    if contents.len() == 1 {
        return Vec::new();
    }
    let lines = table.lines(room).into_iter().zip(contents);
    lines
        .flat_map(|(begin, content)| wrapped(begin, content, room))
        .collect()
}

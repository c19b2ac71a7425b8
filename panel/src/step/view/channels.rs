//! The channels: their ends, what they offered, took and moved in the last step, and what they offer
//! and take in the next.

use reference::netlist::Netlist;
use reference::state::colour_or_none;

use super::line::{Line, Span};
use super::packets::{packet_or_nothing, yes_or_no};
use super::table::Table;
use super::{LAST_STEP, NEXT_STEP};
use crate::step::one_step::OneStep;
use crate::step::session::Session;

/// The column without a heading parts the two steps.
const HEADING: [&str; 9] = [
    "channel", "from", "to", "offer", "take", "moved", "", "offer", "take",
];
const OF_LAST_STEP: usize = 3;
const OF_NEXT_STEP: usize = 7;

pub fn lines(session: &Session, room: usize) -> Vec<Line> {
    let netlist = &session.opened.netlist;
    let walk = &session.walk;
    let mut table = Table::new(&HEADING)
        .group(OF_LAST_STEP, LAST_STEP)
        .group(OF_NEXT_STEP, NEXT_STEP);
    for (channel, [from, to]) in ends(netlist).into_iter().enumerate() {
        let name = &netlist.names.channels[channel];
        let mut row = [name, from, to].map(Span::plain).to_vec();
        match &walk.last {
            Some(last) => {
                row.extend(signals(netlist, last, channel));
                let moved = colour_or_none(last.moves[channel]);
                row.push(packet_or_nothing(netlist, moved));
            }
            None => row.extend(vec![Span::plain(""); 3]),
        }
        row.push(Span::plain(""));
        row.extend(signals(netlist, &walk.next, channel));
        table.row(row);
    }
    table.lines(room)
}

/// The names of the components that each channel comes from and goes to.
fn ends(netlist: &Netlist) -> Vec<[&str; 2]> {
    let Netlist { fabric, names } = netlist;
    let mut ends = vec![[""; 2]; fabric.channels];
    for (component, name) in fabric.components.iter().zip(&names.components) {
        for &port in component.outputs() {
            ends[usize::from(port)][0] = name;
        }
        for &port in component.inputs() {
            ends[usize::from(port)][1] = name;
        }
    }
    ends
}

fn signals(netlist: &Netlist, step: &OneStep, channel: usize) -> [Span; 2] {
    let signal = step.signals[channel];
    [
        packet_or_nothing(netlist, signal.offer),
        yes_or_no(signal.take),
    ]
}

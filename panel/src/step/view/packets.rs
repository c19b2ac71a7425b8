//! Packets in words: the names of their colours.

use reference::netlist::Netlist;

use super::line::{Span, Style, PLAIN};

pub const NOTHING: &str = "-";

pub fn packet(netlist: &Netlist, colour: u8) -> Span {
    let name = &netlist.names.colours[usize::from(colour)];
    let colour = Some(colour);
    Span::new(name, Style { colour, ..PLAIN })
}

pub fn packet_or_nothing(netlist: &Netlist, colour: Option<u8>) -> Span {
    match colour {
        Some(colour) => packet(netlist, colour),
        None => Span::plain(NOTHING),
    }
}

pub fn yes_or_no(yes: bool) -> Span {
    Span::plain(if yes { "yes" } else { "no" })
}

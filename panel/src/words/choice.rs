//! Refusal of a choice: 10.

use reference::netlist::Netlist;
use reference::state::colour_or_none;
use reference::Kind;

use super::number_and_place;
use crate::calls::Refused;

/// The choices of one step that step refuses.
pub fn of_choices(refused: Refused, netlist: &Netlist, choices: &[u8]) -> String {
    let place = refused.place as usize;
    let why = match choices.get(place) {
        Some(&choice) if refused.number == 10 => of_choice(netlist, place, choice),
        _ => "the step is refused".to_string(),
    };
    format!("{why} {}", number_and_place(refused))
}

fn of_choice(netlist: &Netlist, component: usize, choice: u8) -> String {
    let kind = netlist.fabric.components[component].kind;
    let name = &netlist.names.components[component];
    match (kind, colour_or_none(choice)) {
        (Kind::Source, Some(colour)) => {
            let colours = &netlist.names.colours;
            let colour = match colours.get(usize::from(colour)) {
                Some(colour) => colour.clone(),
                None => colour.to_string(),
            };
            format!("source '{name}' does not emit colour {colour}")
        }
        _ => format!("{} '{name}' cannot choose {choice}", kind.name()),
    }
}

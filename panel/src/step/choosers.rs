//! The components that choose, and their choices in words.

use reference::choices::is_allowed;
use reference::component::MOST_COLOURS;
use reference::netlist::{quoted, Netlist};
use reference::random::Random;
use reference::state::colour_or_none;
use reference::{Component, Fabric, Kind};

use super::number::number;

const NONE: &str = "none";
const NO: &str = "no";
const TAKE: &str = "take";

pub fn choosers(fabric: &Fabric) -> Vec<usize> {
    let components = fabric.components.iter().enumerate();
    let choosers = components.filter(|(_, component)| chooses(component.kind));
    choosers.map(|(place, _)| place).collect()
}

pub fn chooses(kind: Kind) -> bool {
    matches!(kind, Kind::Source | Kind::Sink | Kind::Merge)
}

/// None, no and the first input.
pub fn no_choices(fabric: &Fabric) -> Vec<u8> {
    vec![0; fabric.components.len()]
}

/// What can be chosen here; the library says whether a choice is allowed.
pub fn offered(component: &Component) -> Vec<u8> {
    let bytes = 0..=MOST_COLOURS as u8;
    bytes.filter(|&byte| is_allowed(component, byte)).collect()
}

/// Each of what can be chosen is as likely as the others.
pub fn drawn(random: &mut Random, offered: &[Vec<u8>]) -> Vec<u8> {
    let each = offered.iter().map(|bytes| match bytes[..] {
        [only] => only,
        _ => random.pick(bytes),
    });
    each.collect()
}

/// A choice in words: none or a colour of the fabric, no or take, the first or the second input.
pub fn word(netlist: &Netlist, component: usize, choice: u8) -> &str {
    let Netlist { fabric, names } = netlist;
    let component = &fabric.components[component];
    match component.kind {
        Kind::Source => {
            colour_or_none(choice).map_or(NONE, |colour| &names.colours[usize::from(colour)])
        }
        Kind::Merge => &names.channels[usize::from(component.ports[usize::from(choice)])],
        _ if choice == 1 => TAKE,
        _ => NO,
    }
}

/// The byte of a choice. A source's colour is a name or a number; a number that is no colour of the
/// fabric is left for the library to refuse.
pub fn byte(netlist: &Netlist, component: usize, word: &str) -> Result<u8, String> {
    let kind = netlist.fabric.components[component].kind;
    let name = &netlist.names.components[component];
    if !chooses(kind) {
        return Err(format!(
            "{} '{name}' has no choice: sources, sinks and merges have one",
            kind.name()
        ));
    }
    let choices = words(netlist, component);
    if let Some(place) = choices.iter().position(|choice| *choice == word) {
        return Ok(place as u8);
    }
    let colour = number(word).ok().filter(|_| kind == Kind::Source);
    let numbered = colour.and_then(|colour: u8| colour.checked_add(1));
    numbered.ok_or_else(|| {
        let choices = choices.join(", ");
        let (word, kind) = (quoted(word), kind.name());
        format!("{word} is no choice of {kind} '{name}': {choices}")
    })
}

/// The words for the choices of a chooser, each at the place of its byte.
fn words(netlist: &Netlist, chooser: usize) -> Vec<&str> {
    let last = match netlist.fabric.components[chooser].kind {
        Kind::Source => netlist.fabric.colours,
        _ => 1,
    };
    let bytes = 0..=last as u8;
    bytes.map(|byte| word(netlist, chooser, byte)).collect()
}

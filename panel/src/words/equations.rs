//! Colours, flows and equations in words.

use reference::equations::{equation, Flow};
use reference::netlist::{Names, Netlist};
use reference::{Component, Kind};

use super::sign;

/// `red`, or `colour 0` for one without a name.
pub fn colour(names: &Names, colour: usize) -> String {
    let name = &names.colours[colour];
    match name.starts_with(|digit: char| digit.is_ascii_digit()) {
        true => format!("colour {name}"),
        false => name.clone(),
    }
}

/// `red in messages + red on arrived - red on sent = 2`: what is in a queue, and what has moved on a
/// channel since start. `None` if there is no such equation.
pub fn equation_in_words(netlist: &Netlist, place: usize, index: usize) -> Option<String> {
    let (fabric, names) = (&netlist.fabric, &netlist.names);
    let component = &fabric.components[place];
    let flows = equation(component, fabric.colours, index)?;
    let mut text = String::new();
    if component.kind == Kind::Queue {
        let colours = colours_in_words(names, &[index]).concat();
        text += &format!("{colours} in {}", names.components[place]);
    }
    for group in flows.chunk_by(of_one_channel) {
        let colours: Vec<usize> = group.iter().map(|(flow, _)| flow.colour).collect();
        let (flow, factor) = group[0];
        let channel = &names.channels[usize::from(flow.channel)];
        for colour in colours_in_words(names, &colours) {
            text += sign(factor < 0, text.is_empty());
            text += &format!("{colour} on {channel}");
        }
    }
    Some(format!("{text} = {}", right_side(component, index)))
}

/// With the same factor.
fn of_one_channel((flow, factor): &(Flow, i64), (next, next_factor): &(Flow, i64)) -> bool {
    flow.channel == next.channel && factor == next_factor
}

/// Each one, or `all`.
fn colours_in_words(names: &Names, colours: &[usize]) -> Vec<String> {
    if colours.len() == names.colours.len() {
        return vec!["all".to_string()];
    }
    colours.iter().map(|&it| colour(names, it)).collect()
}

/// What a queue holds of the colour at start; 0 for the equations of other kinds.
fn right_side(component: &Component, index: usize) -> u8 {
    match usize::from(component.fill_colour) == index {
        true => component.filling,
        false => 0,
    }
}

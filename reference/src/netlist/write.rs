//! The text of a netlist; reading it gives the same fabric and names.

use super::fields::{CAPACITY, COLOUR, EMITS, FILLING, FIRST, MAP, SECOND};
use super::names::numbers;
use super::wording::padded;
use super::{Netlist, ALL, ARROW, CHANNELS, COLOURS, NONE};
use crate::component::{Component, Kind};

/// Lines of channels are broken where they would be longer.
const WIDTH: usize = 80;

/// The fabric's fields are good: maps and masks name only its colours.
pub fn write(netlist: &Netlist) -> String {
    let mut text = colours_line(netlist);
    text += &channel_lines(netlist);
    if !text.is_empty() {
        text += "\n";
    }
    text + &component_lines(netlist)
}

/// Empty for one colour without a name.
fn colours_line(netlist: &Netlist) -> String {
    let names = &netlist.names.colours;
    if *names != numbers(names.len()) {
        format!("{COLOURS} {}\n", names.join(" "))
    } else if names.len() > 1 {
        format!("{COLOURS} {}\n", names.len())
    } else {
        String::new()
    }
}

/// Empty if the channels are numbered as they first occur.
fn channel_lines(netlist: &Netlist) -> String {
    let names = &netlist.names.channels;
    if (0..names.len()).eq(as_they_occur(&netlist.fabric.components)) {
        return String::new();
    }
    let mut text = CHANNELS.to_string();
    let mut width = text.len();
    for (place, name) in names.iter().enumerate() {
        if place > 0 && width + 1 + name.len() > WIDTH {
            text += &format!("\n{CHANNELS}");
            width = CHANNELS.len();
        }
        text += &format!(" {name}");
        width += 1 + name.len();
    }
    text + "\n"
}

/// Each channel once, in the order of reading.
fn as_they_occur(components: &[Component]) -> impl Iterator<Item = usize> {
    let mut seen = Vec::new();
    for component in components {
        for &port in component.inputs().iter().chain(component.outputs()) {
            if !seen.contains(&port) {
                seen.push(port);
            }
        }
    }
    seen.into_iter().map(usize::from)
}

/// In columns: kind, name, ports, fields.
fn component_lines(netlist: &Netlist) -> String {
    let names = &netlist.names;
    let components = netlist.fabric.components.iter();
    let lines: Vec<[String; 4]> = components
        .zip(&names.components)
        .map(|(component, name)| {
            let kind = component.kind.name().to_string();
            let ports = ports_of(component, &names.channels);
            let fields = fields_of(component, &names.colours);
            [kind, name.clone(), ports, fields]
        })
        .collect();
    let width = |column: usize| lines.iter().map(|line| line[column].len()).max();
    let [w0, w1, w2] = [0, 1, 2].map(|column| width(column).unwrap_or(0));
    let mut text = String::new();
    for [kind, name, ports, fields] in &lines {
        let (kind, name, ports) = (padded(kind, w0), padded(name, w1), padded(ports, w2));
        let line = format!("{kind}  {name}  {ports}  {fields}");
        text += line.trim_end();
        text += "\n";
    }
    text
}

fn ports_of(component: &Component, channels: &[String]) -> String {
    let name = |port: &u8| channels[usize::from(*port)].as_str();
    let mut words: Vec<&str> = component.inputs().iter().map(name).collect();
    if !component.outputs().is_empty() {
        words.push(ARROW);
    }
    words.extend(component.outputs().iter().map(name));
    words.join(" ")
}

fn fields_of(component: &Component, colours: &[String]) -> String {
    match component.kind {
        Kind::Source => match mask_of(component, colours).as_str() {
            ALL => String::new(),
            emitted => format!("{EMITS} {emitted}"),
        },
        Kind::Switch => format!("{FIRST} {}", mask_of(component, colours)),
        Kind::Queue => filling_of(component, colours),
        Kind::Function | Kind::Join => map_of(MAP, &component.first_map, colours),
        Kind::Fork => {
            let first = map_of(FIRST, &component.first_map, colours);
            let second = map_of(SECOND, &component.second_map, colours);
            [first, second].join(" ").trim().to_string()
        }
        Kind::Sink | Kind::Merge => String::new(),
    }
}

fn mask_of(component: &Component, colours: &[String]) -> String {
    let all = colours.iter().enumerate();
    let named: Vec<&str> = all
        .filter(|(colour, _)| component.mask_names(*colour))
        .map(|(_, name)| name.as_str())
        .collect();
    match named.len() {
        0 => NONE.to_string(),
        count if count == colours.len() => ALL.to_string(),
        _ => named.join(" "),
    }
}

fn filling_of(queue: &Component, colours: &[String]) -> String {
    let mut text = format!("{CAPACITY} {}", queue.capacity);
    if queue.filling > 0 {
        text += &format!(" {FILLING} {}", queue.filling);
        if colours.len() > 1 {
            text += &format!(" {COLOUR} {}", colours[usize::from(queue.fill_colour)]);
        }
    }
    text
}

/// Empty if each colour keeps its colour.
fn map_of(field: &str, map: &[u8], colours: &[String]) -> String {
    let mut text = String::new();
    for (colour, &entry) in map[..colours.len()].iter().enumerate() {
        if usize::from(entry) != colour {
            text += &format!(" {}{ARROW}{}", colours[colour], colours[usize::from(entry)]);
        }
    }
    if text.is_empty() {
        return text;
    }
    field.to_string() + &text
}

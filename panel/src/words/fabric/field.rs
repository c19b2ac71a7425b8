//! Refusal 6: a field that breaks its rule.

use reference::field_rules::{Map, WrongField, MOST_CAPACITY};
use reference::Component;

use super::Subject;

const PORTS: [&str; 3] = ["port A", "port B", "port C"];

pub fn why(subject: &Subject, place: usize) -> Option<String> {
    let fabric = subject.fabric;
    let component = fabric.components.get(place)?;
    let wrong = component.wrong_field(fabric.colours, fabric.channels)?;
    let why = reason(subject, component, wrong);
    Some(format!("{}: {why}", subject.component(place)))
}

fn reason(subject: &Subject, component: &Component, wrong: WrongField) -> String {
    let channels = || all_of("channel", subject.fabric.channels);
    let colours = || all_of("colour", subject.fabric.colours);
    let unused = |what: &str| format!("a {} has no {what}", component.kind.name());
    let turns = |map: Map, colour: usize| {
        let into = component.map(map)[colour];
        let colour = subject.colour(colour);
        format!("the {} turns {colour} into {into}", map_name(map))
    };
    let (capacity, filling) = (component.capacity, component.filling);
    let filled = || {
        let colour = subject.colour(usize::from(component.fill_colour));
        format!("it is filled with {colour}")
    };
    match wrong {
        WrongField::Port(port) => {
            let (port, channel) = (PORTS[port], component.ports[port]);
            format!("{port} is channel {channel}, but {}", channels())
        }
        WrongField::UnusedPort(port) => {
            let (port, channel) = (PORTS[port], component.ports[port]);
            format!("{port} is {channel}, but {}", unused(port))
        }
        WrongField::MapEntry(map, colour) | WrongField::MapEntryBeyond(map, colour) => {
            format!("{}, but {}", turns(map, colour), colours())
        }
        WrongField::UnusedMap(map, colour) => {
            format!("{}, but {}", turns(map, colour), unused(map_name(map)))
        }
        WrongField::MaskBeyond(colour) => {
            format!("the mask names colour {colour}, but {}", colours())
        }
        WrongField::EmitsNothing => "it emits no colour".to_string(),
        WrongField::UnusedMask => {
            format!("the mask is {:02X}, but {}", component.mask, unused("mask"))
        }
        WrongField::Capacity => format!("capacity {capacity} is not 1 to {MOST_CAPACITY}"),
        WrongField::Filling => format!("filling {filling} is above capacity {capacity}"),
        WrongField::FillColour => format!("{}, but {}", filled(), colours()),
        WrongField::FillColourOfNone => format!("{}, but the filling is 0", filled()),
        WrongField::UnusedCapacity => format!("capacity {capacity}, but {}", unused("capacity")),
        WrongField::UnusedFilling => format!("filling {filling}, but {}", unused("filling")),
        WrongField::UnusedFillColour => format!("{}, but {}", filled(), unused("filling")),
    }
}

fn map_name(map: Map) -> &'static str {
    match map {
        Map::First => "first map",
        Map::Second => "second map",
    }
}

/// `the channels are 0 to 5`
fn all_of(what: &str, count: usize) -> String {
    match count {
        1 => format!("the only {what} is 0"),
        _ => format!("the {what}s are 0 to {}", count.saturating_sub(1)),
    }
}

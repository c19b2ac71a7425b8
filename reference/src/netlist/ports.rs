//! The ports of a component's line: its inputs, `->`, its outputs.

use super::fields::is_field;
use super::names::name_in;
use super::read::Words;
use super::wording::{called, counted, port_counts, quoted};
use super::ARROW;
use crate::component::Kind;

/// The names of the channels, inputs first.
pub fn read_ports(words: &mut Words, kind: Kind, name: &str) -> Result<Vec<String>, String> {
    let inputs = kind.input_count();
    let mut channels = Vec::new();
    for place in 0..inputs + kind.output_count() {
        if place == inputs {
            read_arrow(words, kind, name)?;
        }
        let word = words.next_if(|word| *word != ARROW && !is_field(word));
        let word = word.ok_or_else(|| no_channel(words.peek(), kind, name))?;
        channels.push(name_in(word)?);
    }
    Ok(channels)
}

fn read_arrow(words: &mut Words, kind: Kind, name: &str) -> Result<(), String> {
    let instead = match words.next() {
        Some(ARROW) => return Ok(()),
        Some(word) => format!(", not {}", quoted(word)),
        None => String::new(),
    };
    let before = match kind.input_count() {
        0 => "name".to_string(),
        1 => "input".to_string(),
        inputs => counted(inputs, "input"),
    };
    let component = called(kind, name);
    Err(format!(
        "{component} needs '{ARROW}' after its {before}{instead}"
    ))
}

fn no_channel(found: Option<&&str>, kind: Kind, name: &str) -> String {
    let has = format!("{} has {}", called(kind, name), port_counts(kind));
    match found {
        Some(word) => format!("{has}, and '{word}' is no channel"),
        None => has,
    }
}

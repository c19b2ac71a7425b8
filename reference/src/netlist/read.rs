//! Reading a netlist's text. What a line says is taken as it stands: whether the fabric is right is
//! for the library to say.

use std::collections::HashMap;

use super::field_values::{digits, no_number, read_fields, Colours};
use super::fields::is_field;
use super::names::{name_in, numbers, Names};
use super::ports::read_ports;
use super::wording::quoted;
use super::{Netlist, ALL, ARROW, CHANNELS, COLOURS, NONE};
use crate::component::{Component, Kind, MOST_COLOURS};
use crate::fabric::{Fabric, MOST_CHANNELS};

/// Ports are bytes, so more channels cannot be numbered.
const MOST_NUMBERED: usize = 256;

/// Some editors begin a text with it.
const BYTE_ORDER_MARK: char = '\u{FEFF}';

#[derive(Clone, PartialEq, Eq, Debug)]
pub struct TextError {
    /// From 1.
    pub line: usize,
    pub message: String,
}

pub type Words<'a> = std::iter::Peekable<std::iter::Copied<std::slice::Iter<'a, &'a str>>>;

pub fn read(text: &str) -> Result<Netlist, TextError> {
    let text = text.strip_prefix(BYTE_ORDER_MARK).unwrap_or(text);
    let mut reading = Reading::default();
    for (place, line) in text.lines().enumerate() {
        let said = line.split('#').next().unwrap_or_default();
        let words: Vec<&str> = said.split_whitespace().collect();
        let line = place + 1;
        let read = reading.line(line, &words);
        read.map_err(|message| TextError { line, message })?;
    }
    Ok(reading.netlist())
}

#[derive(Default)]
struct Reading {
    /// Empty until a line says them, or the first component does without.
    colours: Vec<String>,
    channels: Vec<String>,
    /// The line that first gave the channels' order.
    listed_from: Option<usize>,
    components: Vec<Component>,
    names: Vec<String>,
    /// Kind and line of each component.
    named: HashMap<String, (Kind, usize)>,
}

impl Reading {
    fn line(&mut self, number: usize, words: &[&str]) -> Result<(), String> {
        let Some((&first, rest)) = words.split_first() else {
            return Ok(());
        };
        match first {
            COLOURS => self.colours_line(rest),
            CHANNELS => self.channels_line(number, rest),
            _ => self.component_line(number, kind_of(first)?, rest),
        }
    }

    fn colours_line(&mut self, words: &[&str]) -> Result<(), String> {
        if !self.colours.is_empty() {
            return Err(format!("'{COLOURS}' comes once, before the components"));
        }
        self.colours = match words {
            [] => {
                return Err(format!(
                    "nothing follows '{COLOURS}': a count from 1 to {MOST_COLOURS}, or names"
                ))
            }
            [count] if count.starts_with(|digit: char| digit.is_ascii_digit()) => {
                let known = digits(count).filter(|count| (1..=MOST_COLOURS).contains(count));
                numbers(known.ok_or_else(|| no_number(count, COLOURS, 1, MOST_COLOURS))?)
            }
            names => colour_names(names)?,
        };
        Ok(())
    }

    fn channels_line(&mut self, number: usize, words: &[&str]) -> Result<(), String> {
        if !self.components.is_empty() {
            return Err(format!("'{CHANNELS}' comes before the components"));
        }
        if words.is_empty() {
            return Err(format!("nothing follows '{CHANNELS}'"));
        }
        self.listed_from.get_or_insert(number);
        for &word in words {
            if is_field(word) {
                return Err(format!("'{word}' is a field, no name for a channel"));
            }
            let name = name_in(word)?;
            if self.channels.contains(&name) {
                return Err(format!("channel {} is listed twice", quoted(&name)));
            }
            self.number_channel(name)?;
        }
        Ok(())
    }

    fn component_line(&mut self, number: usize, kind: Kind, words: &[&str]) -> Result<(), String> {
        if self.colours.is_empty() {
            self.colours = numbers(1);
        }
        let words = &mut words.iter().copied().peekable();
        let word = words.next_if(|word| *word != ARROW);
        let name = name_in(word.ok_or_else(|| format!("a {} needs a name", kind.name()))?)?;
        if let Some((other, line)) = self.named.insert(name.clone(), (kind, number)) {
            let (name, other) = (quoted(&name), other.name());
            return Err(format!("{name} is the name of the {other} in line {line}"));
        }
        let mut component = Component::new(kind, [0; 3]);
        let channels = read_ports(words, kind, &name)?;
        for (port, channel) in component.ports.iter_mut().zip(channels) {
            *port = self.channel(channel)?;
        }
        read_fields(words, Colours(&self.colours), &mut component, &name)?;
        self.components.push(component);
        self.names.push(name);
        Ok(())
    }

    /// The number of a channel, a new one if it is new.
    fn channel(&mut self, name: String) -> Result<u8, String> {
        let known = self.channels.iter().position(|other| *other == name);
        match (known, self.listed_from) {
            (Some(place), _) => Ok(place as u8),
            (None, Some(line)) => Err(format!(
                "channel {} is not in the list of line {line}",
                quoted(&name)
            )),
            (None, None) => self.number_channel(name),
        }
    }

    fn number_channel(&mut self, name: String) -> Result<u8, String> {
        let place = self.channels.len();
        if place == MOST_NUMBERED {
            let name = quoted(&name);
            return Err(format!(
                "channel {name} is one too many: a fabric has at most {MOST_CHANNELS}"
            ));
        }
        self.channels.push(name);
        Ok(place as u8)
    }

    fn netlist(self) -> Netlist {
        let colours = if self.colours.is_empty() {
            numbers(1)
        } else {
            self.colours
        };
        Netlist {
            fabric: Fabric {
                colours: colours.len(),
                channels: self.channels.len(),
                components: self.components,
            },
            names: Names {
                colours,
                components: self.names,
                channels: self.channels,
            },
        }
    }
}

fn kind_of(word: &str) -> Result<Kind, String> {
    let kind = Kind::ALL.into_iter().find(|kind| kind.name() == word);
    kind.ok_or_else(|| begins_no_line(word))
}

fn begins_no_line(word: &str) -> String {
    let kinds = Kind::ALL.map(Kind::name);
    let begins = format!("{} begins no line", quoted(word));
    let lower = word.to_lowercase();
    if [COLOURS, CHANNELS].contains(&lower.as_str()) || kinds.contains(&lower.as_str()) {
        return format!("{begins}: it is written '{lower}'");
    }
    let kinds = kinds.join(", ");
    format!("{begins}: lines begin with {COLOURS}, {CHANNELS} or a kind ({kinds})")
}

fn colour_names(words: &[&str]) -> Result<Vec<String>, String> {
    let mut names = Vec::new();
    for &word in words {
        let name = name_in(word)?;
        if [ALL, NONE].contains(&word) {
            return Err(format!(
                "'{word}' is no name for a colour: it stands for colours"
            ));
        }
        if names.contains(&name) {
            return Err(format!("colour {} is named twice", quoted(word)));
        }
        if names.len() == MOST_COLOURS {
            let word = quoted(word);
            return Err(format!(
                "colour {word} is one too many: a fabric has at most {MOST_COLOURS}"
            ));
        }
        names.push(name);
    }
    Ok(names)
}

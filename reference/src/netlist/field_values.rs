//! The fields of a component's line: what they say, and what holds where nothing is said.

use std::str::FromStr;

use super::fields::{fields, needed, CAPACITY, COLOUR, EMITS, FILLING, FIRST, MAP, SECOND};
use super::read::Words;
use super::wording::{called, port_counts, quoted};
use super::{ALL, ARROW, COLOURS, NONE};
use crate::component::{Component, Kind, MOST_COLOURS};
use crate::field_rules::MOST_CAPACITY;

/// The colours of the netlist, which the fields name.
#[derive(Clone, Copy)]
pub struct Colours<'a>(pub &'a [String]);

/// Reads the fields of a component that has its ports, up to the end of the line.
pub fn read_fields(
    words: &mut Words,
    colours: Colours,
    component: &mut Component,
    name: &str,
) -> Result<(), String> {
    let kind = component.kind;
    colours.fill_in(component);
    let mut seen = Vec::new();
    while let Some(word) = words.next() {
        let field = fields(kind).iter().find(|field| **field == word);
        let field = *field.ok_or_else(|| no_field(kind, word))?;
        if seen.contains(&field) {
            return Err(format!("'{field}' stands twice"));
        }
        seen.push(field);
        colours.read_field(words, component, field)?;
    }
    match needed(kind).filter(|field| !seen.contains(field)) {
        Some(field) => Err(format!("{} needs '{field}'", called(kind, name))),
        None => Ok(()),
    }
}

impl Colours<'_> {
    /// Colours are kept, and a source emits all.
    fn fill_in(self, component: &mut Component) {
        let kind = component.kind;
        for colour in 0..self.0.len() {
            if kind.uses_first_map() {
                component.first_map[colour] = colour as u8;
            }
            if kind.uses_second_map() {
                component.second_map[colour] = colour as u8;
            }
        }
        if kind == Kind::Source {
            component.mask = self.all();
        }
    }

    fn read_field(
        self,
        words: &mut Words,
        component: &mut Component,
        field: &str,
    ) -> Result<(), String> {
        match (component.kind, field) {
            (Kind::Source | Kind::Switch, EMITS | FIRST) => {
                component.mask = self.read_mask(words, field)?
            }
            (_, CAPACITY) => component.capacity = read_number(words, field, 1)?,
            (_, FILLING) => component.filling = read_number(words, field, 0)?,
            (_, COLOUR) => component.fill_colour = self.place(after(words, field)?)? as u8,
            (_, SECOND) => self.read_map(words, &mut component.second_map, field)?,
            (_, MAP | FIRST) => self.read_map(words, &mut component.first_map, field)?,
            _ => unreachable!("each field of each kind is above"),
        }
        Ok(())
    }

    fn all(self) -> u8 {
        !(0xFF_u32 >> self.0.len()) as u8
    }

    /// `all`, `none`, or colours up to the end of the line.
    fn read_mask(self, words: &mut Words, field: &str) -> Result<u8, String> {
        let named: Vec<&str> = std::iter::once(after(words, field)?).chain(words).collect();
        match named[..] {
            [ALL] => return Ok(self.all()),
            [NONE] => return Ok(0),
            _ => (),
        }
        let mut mask = 0;
        for word in named {
            if [ALL, NONE].contains(&word) {
                return Err(format!("'{word}' stands alone after '{field}'"));
            }
            let bit = 0x80 >> self.place(word)?;
            if mask & bit != 0 {
                return Err(format!("colour {} is named twice", quoted(word)));
            }
            mask |= bit;
        }
        Ok(mask)
    }

    /// Entries in a row, at least one.
    fn read_map(self, words: &mut Words, map: &mut [u8], field: &str) -> Result<(), String> {
        let mut entered = [false; MOST_COLOURS];
        let mut entry = Some(after(words, field)?);
        while let Some(word) = entry {
            let colours = word.split_once(ARROW);
            let (from, to) = colours.ok_or_else(|| {
                let word = quoted(word);
                format!("{word} after '{field}' is no entry of a map, such as 0{ARROW}1")
            })?;
            let colour = self.place(from)?;
            if std::mem::replace(&mut entered[colour], true) {
                return Err(format!("colour {} is mapped twice", quoted(from)));
            }
            map[colour] = self.place(to)? as u8;
            entry = words.next_if(|word| word.contains(ARROW));
        }
        Ok(())
    }

    fn place(self, word: &str) -> Result<usize, String> {
        let place = self.0.iter().position(|name| name == word);
        place.ok_or_else(|| format!("{} is no colour: {}", quoted(word), self.listed()))
    }

    fn listed(self) -> String {
        match self.0 {
            [only] => format!("there is only {only}; a '{COLOURS}' line gives more"),
            all => all.join(", "),
        }
    }
}

fn after<'a>(words: &mut Words<'a>, field: &str) -> Result<&'a str, String> {
    let word = words.next();
    word.ok_or_else(|| format!("nothing follows '{field}'"))
}

/// A byte; whether it is in its range is for the library to say.
fn read_number(words: &mut Words, field: &str, least: u8) -> Result<u8, String> {
    let word = after(words, field)?;
    digits(word).ok_or_else(|| no_number(word, field, least, usize::from(MOST_CAPACITY)))
}

pub fn no_number(word: &str, field: &str, least: u8, most: usize) -> String {
    let word = quoted(word);
    format!("{word} after '{field}' is no number from {least} to {most}")
}

/// A number written in digits alone.
pub fn digits<T: FromStr>(word: &str) -> Option<T> {
    let all = word.bytes().all(|digit| digit.is_ascii_digit());
    word.parse().ok().filter(|_| all)
}

fn no_field(kind: Kind, word: &str) -> String {
    let (word, name, ports) = (quoted(word), kind.name(), port_counts(kind));
    match fields(kind) {
        [] => format!("{word} is one word too many: a {name} has {ports}, and no field"),
        all => format!(
            "{word} is no field of a {name}: it has {ports}, then {}",
            all.join(", ")
        ),
    }
}

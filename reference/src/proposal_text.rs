//! Proposals as text: terms such as `2 * gate.0`, a multiplier, a component by its name and an
//! index.
//!
//! ```text
//! # What the credit loop keeps.
//! messages.0 + credits.0
//! 1 * gate.0 + gate.8
//! - -1 * split.8
//! ```
//!
//! Lines have any number of terms, each but the first after `+` or `-`. A multiplier that is not
//! said is 1. A `#` begins a comment. Whether there is such an equation is for the library to say.

use std::iter::Peekable;

use crate::equations::INDEXES;
use crate::netlist::{quoted, TextError};
use crate::terms::{fits, Term, MOST_TERMS, MULTIPLIER_BOUND};

/// The components are given by their names.
pub fn read(text: &str, components: &[String]) -> Result<Vec<Term>, TextError> {
    let mut terms = Vec::new();
    for (place, line) in text.lines().enumerate() {
        let said = line.split('#').next().unwrap_or_default();
        read_line(said, components, &mut terms).map_err(|message| TextError {
            line: place + 1,
            message,
        })?;
    }
    Ok(terms)
}

/// A term a line. Each component has a name.
pub fn write(terms: &[Term], components: &[String]) -> String {
    let lines = terms.iter().map(|term| write_term(term, components) + "\n");
    lines.collect()
}

pub fn write_term(term: &Term, components: &[String]) -> String {
    let name = &components[term.component];
    format!("{} * {name}.{}", term.multiplier, term.index)
}

fn read_line(line: &str, components: &[String], terms: &mut Vec<Term>) -> Result<(), String> {
    let words = &mut words(line).peekable();
    let mut first = true;
    while let Some(&word) = words.peek() {
        let sign = signs(words);
        if sign.is_none() && !first {
            return Err(format!("'+' or '-' is missing before {}", quoted(word)));
        }
        if terms.len() == MOST_TERMS {
            return Err(format!("there are more than {MOST_TERMS} terms"));
        }
        terms.push(term(words, sign.unwrap_or(1), components)?);
        first = false;
    }
    Ok(())
}

/// 1 or -1; `None` if there is no sign.
fn signs<'a>(words: &mut Peekable<impl Iterator<Item = &'a str>>) -> Option<i64> {
    let mut sign = None;
    while let Some(word) = words.next_if(|word| ["+", "-"].contains(word)) {
        let one = if word == "-" { -1 } else { 1 };
        sign = Some(sign.unwrap_or(1) * one);
    }
    sign
}

fn term<'a>(
    words: &mut Peekable<impl Iterator<Item = &'a str>>,
    sign: i64,
    components: &[String],
) -> Result<Term, String> {
    let mut multiplier = sign;
    if let Some(number) = words.next_if(|word| word.starts_with(|it: char| it.is_ascii_digit())) {
        multiplier = multiplier_in(number, sign)?;
        if words.next_if_eq(&"*").is_none() {
            return Err(format!("'*' is missing after '{number}'"));
        }
    }
    let word = words.next().ok_or("the line ends before its last term")?;
    let (component, index) = equation_in(word, components)?;
    Ok(Term {
        component,
        index,
        multiplier,
    })
}

fn multiplier_in(number: &str, sign: i64) -> Result<i64, String> {
    let value = number.parse::<i64>().ok().map(|value| sign * value);
    value.filter(|&value| fits(value)).ok_or_else(|| {
        let minus = if sign < 0 { "-" } else { "" };
        let most = MULTIPLIER_BOUND - 1;
        format!("'{minus}{number}' is no multiplier from -{MULTIPLIER_BOUND} to {most}")
    })
}

fn equation_in(word: &str, components: &[String]) -> Result<(usize, usize), String> {
    if !word.starts_with(|letter: char| letter.is_ascii_alphabetic()) {
        return Err(format!("{} stands where a component should", quoted(word)));
    }
    let (name, index) = word.split_once('.').unwrap_or((word, ""));
    let component = components.iter().position(|other| other == name);
    let component = component.ok_or_else(|| format!("{} is no component", quoted(name)))?;
    let known = index.parse().ok().filter(|&index| index < INDEXES);
    let index = known.ok_or_else(|| match index {
        "" => format!("{} has no index, as {name}.0 has", quoted(word)),
        _ => format!("{}: an index is 0 to {}", quoted(word), INDEXES - 1),
    })?;
    Ok((component, index))
}

/// Names with their index, numbers, and single signs.
fn words(line: &str) -> impl Iterator<Item = &str> {
    let mut rest = line.trim_start();
    std::iter::from_fn(move || {
        let (word, behind) = rest.split_at(word_length(rest)?);
        rest = behind.trim_start();
        Some(word)
    })
}

/// A `-` in a name is a part of it, one behind an index is not.
fn word_length(rest: &str) -> Option<usize> {
    let first = rest.chars().next()?;
    if !first.is_ascii_alphanumeric() {
        return Some(first.len_utf8());
    }
    let plain = |letter: char| letter.is_ascii_alphanumeric() || letter == '_';
    let named = |letter: char| plain(letter) || letter == '-' && first.is_ascii_alphabetic();
    let name = rest.find(|letter| !named(letter)).unwrap_or(rest.len());
    let Some(index) = rest[name..].strip_prefix('.') else {
        return Some(name);
    };
    let index = index.find(|letter| !plain(letter)).unwrap_or(index.len());
    Some(name + 1 + index)
}

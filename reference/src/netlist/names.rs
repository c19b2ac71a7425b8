//! What the colours, components and channels of a netlist are called.

use super::wording::quoted;
use super::ARROW;
use crate::fabric::Fabric;

#[derive(Clone, PartialEq, Eq, Debug)]
pub struct Names {
    pub colours: Vec<String>,
    pub components: Vec<String>,
    pub channels: Vec<String>,
}

impl Names {
    /// For a fabric without names: colours by number, components by kind and number.
    pub fn numbered(fabric: &Fabric) -> Names {
        let components = fabric.components.iter().enumerate();
        Names {
            colours: numbers(fabric.colours),
            components: components
                .map(|(place, component)| format!("{}{place}", component.kind.name()))
                .collect(),
            channels: (0..fabric.channels).map(|x| format!("c{x}")).collect(),
        }
    }
}

/// The names of so many colours that have none.
pub fn numbers(count: usize) -> Vec<String> {
    (0..count).map(|colour| colour.to_string()).collect()
}

pub const NAME_RULE: &str =
    "a name begins with a letter and has letters a to z, A to Z, digits, '_' and '-'";

pub fn is_name(word: &str) -> bool {
    let named = |letter: char| letter.is_ascii_alphanumeric() || letter == '_' || letter == '-';
    word.starts_with(|letter: char| letter.is_ascii_alphabetic()) && word.chars().all(named)
}

pub fn name_in(word: &str) -> Result<String, String> {
    if is_name(word) {
        return Ok(word.to_string());
    }
    let no_name = format!("{} is no name", quoted(word));
    if word.contains(ARROW) && word != ARROW {
        return Err(format!("{no_name}: '{ARROW}' needs a blank on each side"));
    }
    Err(format!("{no_name}: {NAME_RULE}"))
}

//! The terminal's colours for the packets' colours.

use crate::step::view::Style;

/// Colours that can be told apart on dark and on light ground, by name and code.
const INKS: [(&str, u8); 8] = [
    ("cyan", 36),
    ("magenta", 35),
    ("green", 32),
    ("yellow", 33),
    ("blue", 34),
    ("red", 31),
    ("grey", 90),
    ("orange", 91),
];

/// A code for each colour, or none where no colours are wanted.
pub struct Palette(Vec<u8>);

impl Palette {
    pub fn without_colours() -> Palette {
        Palette(Vec::new())
    }

    /// A colour named after an ink gets it; the others get what is left, in order.
    pub fn new(names: &[String]) -> Palette {
        let named = |name: &String| INKS.iter().find(|(ink, _)| ink == name);
        let mut left = INKS
            .iter()
            .filter(|(ink, _)| !names.iter().any(|name| name == ink));
        let ink = |name| named(name).or_else(|| left.next());
        let inks = names.iter().map(ink);
        Palette(inks.map(|ink| ink.expect("eight inks").1).collect())
    }

    /// The escape sequence from any style to this one.
    pub fn sequence(&self, style: Style) -> String {
        let mut codes = String::new();
        if style.bold {
            codes += ";1";
        }
        if style.reverse {
            codes += ";7";
        }
        let colour = style.colour.map(usize::from);
        if let Some(code) = colour.and_then(|colour| self.0.get(colour)) {
            codes += &format!(";{code}");
        }
        format!("\x1b[{codes}m")
    }
}

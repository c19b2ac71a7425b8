//! Netlists as text: a component a line, its channels by name.
//!
//! ```text
//! queue   credits   back -> credit       capacity 2 filling 2
//! ```
//!
//! The page NETLIST of the documents describes every line and field.

mod field_values;
mod fields;
mod names;
mod ports;
mod read;
mod wording;
mod write;

use crate::fabric::Fabric;

pub use field_values::digits;
pub use names::{is_name, Names, NAME_RULE};
pub use read::{read, TextError};
pub use wording::{counted, padded, quoted};
pub use write::write;

/// The word between inputs and outputs, and between the two colours of a map's entry.
const ARROW: &str = "->";

const ALL: &str = "all";
const NONE: &str = "none";

const COLOURS: &str = "colours";
const CHANNELS: &str = "channels";

/// A fabric, accepted or not, and what its parts are called.
pub struct Netlist {
    pub fabric: Fabric,
    pub names: Names,
}

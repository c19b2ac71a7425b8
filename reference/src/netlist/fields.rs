//! The fields that a component's line has after its ports, by kind.

use crate::component::Kind;

pub const CAPACITY: &str = "capacity";
pub const FILLING: &str = "filling";
pub const COLOUR: &str = "colour";
pub const EMITS: &str = "emits";
pub const MAP: &str = "map";
pub const FIRST: &str = "first";
pub const SECOND: &str = "second";

pub fn fields(kind: Kind) -> &'static [&'static str] {
    match kind {
        Kind::Source => &[EMITS],
        Kind::Queue => &[CAPACITY, FILLING, COLOUR],
        Kind::Function | Kind::Join => &[MAP],
        Kind::Fork => &[FIRST, SECOND],
        Kind::Switch => &[FIRST],
        Kind::Sink | Kind::Merge => &[],
    }
}

/// Without it the line is not whole.
pub fn needed(kind: Kind) -> Option<&'static str> {
    match kind {
        Kind::Queue => Some(CAPACITY),
        Kind::Switch => Some(FIRST),
        _ => None,
    }
}

/// Channels have other names, so that a line that lacks one does not take a field for it.
pub fn is_field(word: &str) -> bool {
    Kind::ALL.iter().any(|kind| fields(*kind).contains(&word))
}

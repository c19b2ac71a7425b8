//! The second program of the panel fabric checker: its document in plain Rust.
//!
//! The calls on files are `unpack` and `pack`, those on a state `start`, `step` and `run`, and
//! `check` judges a proposed sum, from which `ceiling` works out the most that a queue can hold of
//! a colour; `check_many` judges the blocks of a file, a proposed sum each. `reach` lists the colours
//! that can reach each channel. Every call answers with a `Result`; a `Refusal` knows its number and
//! its place.

// The document's rules and calls.
pub mod blocks;
pub mod ceiling;
pub mod channel_ends;
pub mod check;
pub mod check_many;
pub mod choices;
pub mod circle;
pub mod component;
pub mod dependences;
pub mod entries;
pub mod equations;
pub mod fabric;
pub mod field_rules;
pub mod file_calls;
pub mod listing;
pub mod merge;
pub mod open_table;
pub mod packed;
pub mod persistence;
pub mod reach;
pub mod refusal;
pub mod rules;
pub mod signals;
pub mod state;
pub mod state_calls;
pub mod terms;

// The calls of the library.
pub mod library;

// Netlists and proposals as text, and where a refused netlist waits for itself.
pub mod netlist;
pub mod proposal_text;
pub mod shortest_circle;

// The sums of a fabric.
pub mod null_space;
pub mod sparse;
pub mod sum_basis;

// For the comparison: a digest of two runs, and where the flows lie that a proposal leaves.
pub mod digest;
pub mod left;

// Fabrics, states and proposals to try them on.
pub mod panels;
pub mod random;
pub mod random_fabric;
pub mod random_proposal;
pub mod random_state;
pub mod random_wiring;
pub mod samples;

#[cfg(test)]
mod tests;

pub use ceiling::ceiling;
pub use check::check;
pub use check_many::check_many;
pub use component::{Component, Kind};
pub use fabric::Fabric;
pub use file_calls::{pack, unpack, Unpacked};
pub use listing::listing;
pub use reach::reach;
pub use refusal::Refusal;
pub use state_calls::{run, start, step};

//! One step, taken or to come: what the library makes of it, and the signals beside it.

use reference::netlist::Netlist;
use reference::signals::{signals, Channel};
use reference::state::{byte_of, COMPONENT_STATE};

use crate::calls;
use crate::failure::Failure;
use crate::opened::Opened;
use crate::words;

pub struct OneStep {
    pub choices: Vec<u8>,
    /// The state after it, as the library wrote it.
    pub after: Vec<u8>,
    /// A byte a channel, as the library wrote it: 0, or 1 + the colour that moved.
    pub moves: Vec<u8>,
    /// By the second program's rules; the library hands none out.
    pub signals: Vec<Channel>,
}

impl OneStep {
    pub fn of(opened: &Opened, state: &[u8], choices: Vec<u8>) -> Result<OneStep, Failure> {
        let netlist = &opened.netlist;
        let mut after = state.to_vec();
        let moves = calls::step(&opened.file, &mut after, &choices).map_err(|refused| {
            Failure::Refused(words::choice::of_choices(refused, netlist, &choices))
        })?;
        let (states, _) = state.as_chunks::<COMPONENT_STATE>();
        let signals = signals(&netlist.fabric, states, &choices);
        compare(netlist, &signals, &moves)?;
        Ok(OneStep {
            choices,
            after,
            moves,
            signals,
        })
    }
}

/// A packet moves where it is offered and taken: the signals and the library's moves must agree.
pub fn compare(netlist: &Netlist, signals: &[Channel], moves: &[u8]) -> Result<(), Failure> {
    let expected = signals.iter().map(|channel| byte_of(channel.transfer()));
    let mut pairs = expected.zip(moves).enumerate();
    let Some((channel, (by_rules, by_library))) = pairs.find(|(_, (left, right))| left != *right)
    else {
        return Ok(());
    };
    let name = &netlist.names.channels[channel];
    Err(Failure::Differ(format!(
        "the library and the second program differ on channel '{name}': the library's move is \
         {by_library}, by offer and take it is {by_rules}"
    )))
}

//! An accepted sum in names.

use reference::component::MOST_COLOURS;
use reference::netlist::Netlist;
use reference::state::{count_of, COMPONENT_STATE};
use reference::Kind;

use crate::calls::Checked;
use crate::words::sign;

impl Checked {
    /// `messages + credits = 2`
    pub fn equation(&self, netlist: &Netlist) -> String {
        format!("{} = {}", self.text(netlist), self.constant)
    }

    /// `messages + credits`. A queue that has one weight for all colours stands for all that it
    /// holds; else `messages.red` is how many of a colour it holds. Weights below 0 come last.
    pub fn text(&self, netlist: &Netlist) -> String {
        let mut parts = self.parts(netlist);
        parts.sort_by_key(|(weight, _)| *weight < 0);
        let mut text = String::new();
        for (weight, name) in parts {
            text += sign(weight < 0, text.is_empty());
            if weight.unsigned_abs() != 1 {
                text += &format!("{} * ", weight.unsigned_abs());
            }
            text += &name;
        }
        text
    }

    /// Weights other than 0, each with what it weighs.
    fn parts(&self, netlist: &Netlist) -> Vec<(i64, String)> {
        let names = &netlist.names;
        let mut parts = Vec::new();
        for (queue, weights) in self.by_queue(netlist) {
            let name = &names.components[queue];
            if weights.iter().all(|weight| *weight == weights[0]) {
                parts.push((weights[0], name.clone()));
                continue;
            }
            for (colour, &weight) in weights.iter().enumerate() {
                if weight != 0 {
                    parts.push((weight, format!("{name}.{}", names.colours[colour])));
                }
            }
        }
        parts
    }

    /// What the sum is in a state.
    pub fn value(&self, netlist: &Netlist, state: &[u8]) -> i64 {
        let (cells, _) = state.as_chunks::<COMPONENT_STATE>();
        let mut value = 0;
        for (queue, weights) in self.by_queue(netlist) {
            for (colour, weight) in weights.iter().enumerate() {
                value += weight * count_of(&cells[queue], colour) as i64;
            }
        }
        value
    }

    /// The queues with a weight other than 0, each with its weights of the colours below C.
    pub fn by_queue<'a>(
        &'a self,
        netlist: &'a Netlist,
    ) -> impl Iterator<Item = (usize, &'a [i64])> {
        let components = netlist.fabric.components.iter();
        let queues = components
            .enumerate()
            .filter(|(_, component)| component.kind == Kind::Queue);
        queues
            .map(|(queue, _)| {
                (
                    queue,
                    &self.weights[MOST_COLOURS * queue..][..netlist.fabric.colours],
                )
            })
            .filter(|(_, weights)| weights.iter().any(|weight| *weight != 0))
    }
}

//! Which signals each signal depends on.

use crate::component::{Component, Kind};

#[derive(Clone, Copy, PartialEq, Eq, Debug)]
pub enum Signal {
    /// None or a colour: irdy with data.
    Offer(u8),
    /// Yes or no: trdy.
    Take(u8),
}

impl Signal {
    /// As many as there are signals of 256 channels.
    pub const COUNT: usize = 512;

    /// A number of its own below `COUNT` for each signal.
    pub fn index(self) -> usize {
        match self {
            Signal::Offer(channel) => 2 * usize::from(channel),
            Signal::Take(channel) => 2 * usize::from(channel) + 1,
        }
    }

    pub fn channel(self) -> usize {
        self.index() / 2
    }
}

/// The first signal depends on the second.
pub type Dependence = (Signal, Signal);

/// A signal depends on each signal in its rule; take(A) and take(B) of a merge depend on both
/// offers.
pub fn dependences(component: &Component) -> Vec<Dependence> {
    use Signal::{Offer, Take};
    let [a, b, c] = component.ports;
    match component.kind {
        // Source: its held colour if it has one, else its choice. Sink takes if held or chosen.
        // Queue: offers its front colour if not empty; takes if not full at the step's beginning.
        Kind::Source | Kind::Sink | Kind::Queue => vec![],
        // Function: offers the mapped colour; takes as its output does.
        Kind::Function => vec![(Offer(b), Offer(a)), (Take(a), Take(b))],
        // Fork: B is offered the first map's colour if the input is offered and C takes; C likewise
        // with the second map and B taking. Its input is taken if B and C take.
        Kind::Fork => vec![
            (Offer(b), Offer(a)),
            (Offer(b), Take(c)),
            (Offer(c), Offer(a)),
            (Offer(c), Take(b)),
            (Take(a), Take(b)),
            (Take(a), Take(c)),
        ],
        // Join: offers the mapped colour of A if A and B are offered. A is taken if the output
        // takes and B is offered; B if the output takes and A is offered.
        Kind::Join => vec![
            (Offer(c), Offer(a)),
            (Offer(c), Offer(b)),
            (Take(a), Take(c)),
            (Take(a), Offer(b)),
            (Take(b), Take(c)),
            (Take(b), Offer(a)),
        ],
        // Switch: offers its colour to the one output the mask names, none to the other. Its input
        // is taken if it is offered and that output takes.
        Kind::Switch => vec![
            (Offer(b), Offer(a)),
            (Offer(c), Offer(a)),
            (Take(a), Offer(a)),
            (Take(a), Take(b)),
            (Take(a), Take(c)),
        ],
        // Merge: while the held input is offered it is picked; else, if both inputs are offered the
        // choice picks, else the one offered. It offers the picked colour. An input is taken if
        // picked, offered and the output takes.
        Kind::Merge => vec![
            (Offer(c), Offer(a)),
            (Offer(c), Offer(b)),
            (Take(a), Offer(a)),
            (Take(a), Offer(b)),
            (Take(a), Take(c)),
            (Take(b), Offer(a)),
            (Take(b), Offer(b)),
            (Take(b), Take(c)),
        ],
    }
}

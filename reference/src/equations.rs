//! The flows, and the equation that a component has at an index.

use crate::component::{Component, Kind, MOST_COLOURS};

/// Equation indexes are below this.
pub const INDEXES: usize = 16;

/// L(x,d): the transfers of colour d on channel x since start.
#[derive(Clone, Copy)]
pub struct Flow {
    pub channel: u8,
    pub colour: usize,
}

impl Flow {
    /// 8 times channel plus colour.
    pub fn number(self) -> usize {
        MOST_COLOURS * usize::from(self.channel) + self.colour
    }
}

/// Each flow with its factor as they stand in the equation, one that stands there twice twice;
/// `None` if there is no such equation. e and d are below C, which is `colours`.
pub fn equation(component: &Component, colours: usize, index: usize) -> Option<Vec<(Flow, i64)>> {
    let [a, b, c] = component.ports;
    let flow = |channel, colour| Flow { channel, colour };
    let below_c = |colour: usize| colour < colours;
    let emitted = |d: usize| component.mask_names(d);
    let to_b = |d: usize| component.mask_names(d);

    // L(output,e) - sum of L(A,d) mapped to e = 0
    let mapped = |output, e: usize, map: &[u8; MOST_COLOURS]| {
        let mut flows = vec![(flow(output, e), 1)];
        for d in (0..colours).filter(|&d| usize::from(map[d]) == e) {
            flows.push((flow(a, d), -1));
        }
        flows
    };
    // L(output,d) - (L(A,d) if d goes to the output) = 0
    let switched = |output, d: usize, goes: bool| {
        let mut flows = vec![(flow(output, d), 1)];
        if goes {
            flows.push((flow(a, d), -1));
        }
        flows
    };

    match (component.kind, index) {
        // source, d not emitted: L(A,d) = 0
        (Kind::Source, d) if below_c(d) && !emitted(d) => Some(vec![(flow(a, d), 1)]),
        // queue, d: n + L(B,d) - L(A,d) = n0
        (Kind::Queue, d) if below_c(d) => Some(vec![(flow(b, d), 1), (flow(a, d), -1)]),
        // function, e: L(B,e) - sum of L(A,d) mapped to e = 0
        (Kind::Function, e) if below_c(e) => Some(mapped(b, e, &component.first_map)),
        // fork, e; 8+e: the same for B with the first map; for C with the second
        (Kind::Fork, e @ ..8) if below_c(e) => Some(mapped(b, e, &component.first_map)),
        (Kind::Fork, 8..) if below_c(index - 8) => {
            Some(mapped(c, index - 8, &component.second_map))
        }
        // join, e; 8: the same for C from A; all of L(A) - all of L(B) = 0
        (Kind::Join, e @ ..8) if below_c(e) => Some(mapped(c, e, &component.first_map)),
        (Kind::Join, 8) => {
            let all_of_a = (0..colours).map(|d| (flow(a, d), 1));
            let all_of_b = (0..colours).map(|d| (flow(b, d), -1));
            Some(all_of_a.chain(all_of_b).collect())
        }
        // switch, d; 8+d: L(B,d) - (L(A,d) if d goes to B) = 0; for C likewise
        (Kind::Switch, d @ ..8) if below_c(d) => Some(switched(b, d, to_b(d))),
        (Kind::Switch, 8..) if below_c(index - 8) => Some(switched(c, index - 8, !to_b(index - 8))),
        // merge, d: L(C,d) - L(A,d) - L(B,d) = 0
        (Kind::Merge, d) if below_c(d) => {
            Some(vec![(flow(c, d), 1), (flow(a, d), -1), (flow(b, d), -1)])
        }
        // No other index exists; sinks have none.
        _ => None,
    }
}

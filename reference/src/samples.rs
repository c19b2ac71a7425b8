//! Small fabrics to test with: those of the document, and shapes of any size.

use crate::component::{Component, Kind};
use crate::fabric::Fabric;
use crate::open_table::{write_table, ROW};
use crate::packed::{file_length, write_file};
use crate::terms::Term;

impl Fabric {
    /// The packed file, whether or not the fabric would be accepted.
    pub fn to_file(&self) -> Vec<u8> {
        let mut file = vec![0; file_length(self.components.len())];
        write_file(self, &mut file);
        file
    }

    /// The same components, the last one first.
    pub fn laid_backwards(&self) -> Fabric {
        Fabric {
            components: self.components.iter().rev().copied().collect(),
            ..*self
        }
    }

    /// The open table, whether or not the fabric would be accepted.
    pub fn to_table(&self) -> Vec<u8> {
        let mut table = vec![0; ROW * self.components.len()];
        write_table(self, &mut table);
        table
    }
}

/// Emits colour 0.
pub fn source(a: u8) -> Component {
    emits(0x80, a)
}

/// A source with these colours.
pub fn emits(mask: u8, a: u8) -> Component {
    Component {
        mask,
        ..Component::new(Kind::Source, [a, 0, 0])
    }
}

pub fn sink(a: u8) -> Component {
    Component::new(Kind::Sink, [a, 0, 0])
}

pub fn queue(a: u8, b: u8, capacity: u8, filling: u8) -> Component {
    Component {
        capacity,
        filling,
        ..Component::new(Kind::Queue, [a, b, 0])
    }
}

pub fn credit_loop() -> Fabric {
    credit_loops(1)
}

/// The terms of the credit loop's sum, in the document's order.
pub fn credit_terms() -> Vec<Term> {
    [(2, 0), (5, 0), (1, 0), (1, 8), (3, 8)]
        .map(|(component, index)| Term {
            component,
            index,
            multiplier: 1,
        })
        .to_vec()
}

/// As many credit loops as asked for, side by side.
pub fn credit_loops(count: usize) -> Fabric {
    let one = |x: u8| {
        [
            source(x),
            Component::new(Kind::Join, [x, x + 1, x + 2]),
            queue(x + 2, x + 3, 2, 0),
            Component::new(Kind::Fork, [x + 3, x + 4, x + 5]),
            sink(x + 4),
            queue(x + 5, x + 1, 2, 2),
        ]
    };
    let channels = 6 * count;
    Fabric {
        colours: 1,
        channels,
        components: (0..channels as u8).step_by(6).flat_map(one).collect(),
    }
}

/// A source of colour 0, a queue and a sink; colour 1 never comes.
pub fn colour_0_alone() -> Fabric {
    Fabric {
        colours: 2,
        channels: 2,
        components: vec![source(0), queue(0, 1, 1, 0), sink(1)],
    }
}

/// A fork whose outputs are the two inputs of one join.
pub fn fork_into_join() -> Fabric {
    let components = vec![
        source(0),
        Component::new(Kind::Fork, [0, 1, 2]),
        Component::new(Kind::Join, [1, 2, 3]),
        sink(3),
    ];
    Fabric {
        colours: 1,
        channels: 4,
        components,
    }
}

/// All 256 outputs of 128 forks on one channel.
pub fn forks_into_one_channel() -> Fabric {
    Fabric {
        colours: 1,
        channels: 2,
        components: vec![Component::new(Kind::Fork, [1, 0, 0]); 128],
    }
}

/// As many queues as asked for, each with its output on its own input.
pub fn looped_queues(count: usize) -> Fabric {
    let components = (0..count)
        .map(|channel| queue(channel as u8, channel as u8, 1, 0))
        .collect();
    Fabric {
        colours: 1,
        channels: count,
        components,
    }
}

/// The same, each full.
pub fn full_queues(count: usize) -> Fabric {
    let mut looped = looped_queues(count);
    looped.components.iter_mut().for_each(|it| it.filling = 1);
    looped
}

/// A source, functions in a row and a sink.
pub fn function_row(count: usize) -> Fabric {
    let last = count as u8 - 2;
    let functions = (0..last).map(|a| Component::new(Kind::Function, [a, a + 1, 0]));
    let components = [source(0)]
        .into_iter()
        .chain(functions)
        .chain([sink(last)])
        .collect();
    Fabric {
        colours: 1,
        channels: count - 1,
        components,
    }
}

/// A source, queues in a row and a sink.
pub fn queue_row(count: usize) -> Fabric {
    let mut row = function_row(count);
    let last = row.components.len() - 1;
    for component in &mut row.components[1..last] {
        let [a, b, _] = component.ports;
        *component = queue(a, b, 1, 0);
    }
    row
}

/// A source of two colours, switches into merges in a row and a sink; 63 such pairs make 128
/// components and 190 channels.
pub fn switch_row(pairs: usize) -> Fabric {
    let one = |x: u8| {
        let switch = Component {
            mask: 0x80,
            ..Component::new(Kind::Switch, [x, x + 1, x + 2])
        };
        [switch, Component::new(Kind::Merge, [x + 1, x + 2, x + 3])]
    };
    let last = 3 * pairs as u8;
    let components = [emits(0xC0, 0)]
        .into_iter()
        .chain((0..last).step_by(3).flat_map(one))
        .chain([sink(last)])
        .collect();
    Fabric {
        colours: 2,
        channels: 3 * pairs + 1,
        components,
    }
}

/// A source of colour 0 and sources of colour 1 into merges in a row, and a sink; 63 merges make 128
/// components and 127 channels. A merge has what comes down the row at A.
pub fn merge_row(merges: usize) -> Fabric {
    let one = |x: u8| {
        [
            emits(0x40, x + 1),
            Component::new(Kind::Merge, [x, x + 1, x + 2]),
        ]
    };
    let last = 2 * merges as u8;
    let components = [source(0)]
        .into_iter()
        .chain((0..last).step_by(2).flat_map(one))
        .chain([sink(last)])
        .collect();
    Fabric {
        colours: 2,
        channels: 2 * merges + 1,
        components,
    }
}

/// Packets of colour 0 from a queue through stages of a fork whose outputs, one of them through a
/// queue, are merged again; the last queue has its output on its own input. Each stage doubles what
/// its packets weigh.
pub fn doubling_row(stages: usize) -> Fabric {
    let keeps_colour = |a, b, c| {
        let mut fork = Component::new(Kind::Fork, [a, b, c]);
        fork.first_map[1] = 1;
        fork.second_map[1] = 1;
        fork
    };
    let one = |x: u8| {
        [
            keeps_colour(x, x + 1, x + 2),
            queue(x + 1, x + 3, 2, 0),
            Component::new(Kind::Merge, [x + 2, x + 3, x + 4]),
        ]
    };
    let last = 4 * stages as u8 + 1;
    let components = [emits(0x40, 0), queue(0, 1, 2, 1)]
        .into_iter()
        .chain((1..last).step_by(4).flat_map(one))
        .chain([
            Component::new(Kind::Merge, [last, last + 2, last + 1]),
            queue(last + 1, last + 2, 2, 0),
        ])
        .collect();
    Fabric {
        colours: 2,
        channels: 4 * stages + 4,
        components,
    }
}

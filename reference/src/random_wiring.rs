//! Random wirings: components joined by channels, with their other fields still 0.

use crate::circle::left_by_removal;
use crate::component::{Component, Kind};
use crate::dependences::{dependences, Signal};
use crate::fabric::MOST_COMPONENTS;
use crate::random::Random;

/// Components with ports alone, and for each channel the component and port it leads to.
pub struct Wiring {
    pub components: Vec<Component>,
    pub consumers: Vec<(usize, usize)>,
}

impl Wiring {
    /// Numbers the outputs in a row and joins them to the inputs at random.
    pub fn new(random: &mut Random, count: usize) -> Wiring {
        let mut components = Vec::with_capacity(MOST_COMPONENTS);
        let mut consumers = Vec::with_capacity(2 * MOST_COMPONENTS);
        let mut outputs = 0;
        for (place, kind) in balanced_kinds(random, count).into_iter().enumerate() {
            let mut component = Component::new(kind, [0; 3]);
            let inputs = kind.input_count();
            for port in &mut component.ports[inputs..inputs + kind.output_count()] {
                *port = outputs;
                outputs += 1;
            }
            consumers.extend((0..inputs).map(|port| (place, port)));
            components.push(component);
        }
        random.shuffle(&mut consumers);
        for (channel, &(place, port)) in consumers.iter().enumerate() {
            components[place].ports[port] = channel as u8;
        }
        Wiring {
            components,
            consumers,
        }
    }

    /// Starts with a third of the components or more and cuts what circles there are; begins again
    /// with fewer if that takes too many queues.
    pub fn without_circles(random: &mut Random, size: usize) -> Wiring {
        let mut first = random.between(size.div_ceil(3), size);
        loop {
            let mut wiring = Wiring::new(random, first);
            let cut = channels_to_cut(&wiring.components);
            if wiring.components.len() + cut.len() <= MOST_COMPONENTS {
                for channel in cut {
                    wiring.relay(channel, Kind::Queue);
                }
                return wiring;
            }
            first = first * 3 / 4;
        }
    }

    /// Puts a queue or a function into a channel.
    pub fn relay(&mut self, channel: usize, kind: Kind) {
        let behind = self.consumers.len() as u8;
        let (place, port) = self.consumers[channel];
        self.components[place].ports[port] = behind;
        self.consumers.push((place, port));
        self.consumers[channel] = (self.components.len(), 0);
        self.components
            .push(Component::new(kind, [channel as u8, behind, 0]));
    }
}

/// Channels such that with a queue in each of them no circle is left.
fn channels_to_cut(components: &[Component]) -> Vec<usize> {
    let mut cut = Vec::new();
    let mut left = left_by_removal(components.iter().flat_map(dependences).collect());
    while let Some(&(mut signal, _)) = left.first() {
        let mut one_on = [None; Signal::COUNT];
        for &(signal, on) in &left {
            one_on[signal.index()] = Some(on);
        }
        // After so many dependences in a row the last signal is on a circle.
        for _ in 0..left.len() {
            signal = one_on[signal.index()].expect("each that is left depends on another");
        }
        cut.push(signal.channel());
        left.retain(|(_, on)| on.channel() != signal.channel());
        left = left_by_removal(left);
    }
    cut
}

/// Kinds with as many outputs as inputs in all. Most often all eight are drawn from, else some.
fn balanced_kinds(random: &mut Random, count: usize) -> Vec<Kind> {
    let mut drawn_from = Kind::ALL.to_vec();
    if random.percent(25) {
        random.shuffle(&mut drawn_from);
        drawn_from.truncate(random.between(1, 4));
    }
    let surplus_of = |kind: Kind| kind.output_count() as isize - kind.input_count() as isize;
    let mut surplus = 0_isize;
    let mut kinds = Vec::with_capacity(count);
    for left in (0..count).rev() {
        let mut kind = random.pick(&drawn_from);
        if (surplus + surplus_of(kind)).unsigned_abs() > left {
            kind = random.pick(match surplus {
                ..0 => &[Kind::Source, Kind::Fork, Kind::Switch],
                0 => &[Kind::Queue, Kind::Queue, Kind::Function],
                _ => &[Kind::Sink, Kind::Join, Kind::Merge],
            });
        }
        surplus += surplus_of(kind);
        kinds.push(kind);
    }
    kinds
}

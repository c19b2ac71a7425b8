//! Random fabrics whose fields and channel ends are good, with or without circles.

use crate::component::{Component, Kind};
use crate::fabric::Fabric;
use crate::random::Random;
use crate::random_wiring::Wiring;

pub struct Plan {
    /// The least count of components.
    pub size: usize,
    pub colours: usize,
    /// Whether circles are left as they come, or cut by queues.
    pub circles: bool,
}

pub fn random_fabric(random: &mut Random, plan: &Plan) -> Fabric {
    let mut wiring = if plan.circles {
        Wiring::new(random, plan.size)
    } else {
        Wiring::without_circles(random, plan.size)
    };
    while wiring.components.len() < plan.size {
        let kind = random.pick(&[Kind::Queue, Kind::Function]);
        let channel = random.below(wiring.consumers.len());
        wiring.relay(channel, kind);
    }
    finish(random, wiring, plan.colours)
}

/// Renames the channels, shuffles the components and draws the other fields.
fn finish(random: &mut Random, wiring: Wiring, colours: usize) -> Fabric {
    let Wiring {
        mut components,
        consumers,
    } = wiring;
    let channels = consumers.len();
    let mut names: Vec<u8> = (0..channels as u8).collect();
    random.shuffle(&mut names);
    for component in &mut components {
        let used = component.kind.input_count() + component.kind.output_count();
        for port in &mut component.ports[..used] {
            *port = names[usize::from(*port)];
        }
        draw_fields(random, component, colours);
    }
    random.shuffle(&mut components);
    Fabric {
        colours,
        channels,
        components,
    }
}

fn draw_fields(random: &mut Random, component: &mut Component, colours: usize) {
    if component.kind.uses_first_map() {
        draw_map(random, &mut component.first_map[..colours]);
    }
    if component.kind.uses_second_map() {
        draw_map(random, &mut component.second_map[..colours]);
    }
    if component.kind.uses_mask() {
        component.mask = draw_mask(random, colours, component.kind == Kind::Source);
    }
    if component.kind == Kind::Queue {
        component.capacity = if random.percent(20) {
            random.pick(&[1, 2, 62, 63])
        } else {
            random.between(1, 63) as u8
        };
        component.filling = random.up_to(usize::from(component.capacity)) as u8;
        if component.filling > 0 {
            component.fill_colour = random.below(colours) as u8;
        }
    }
}

fn draw_map(random: &mut Random, entries: &mut [u8]) {
    let colours = entries.len();
    for entry in entries {
        *entry = random.below(colours) as u8;
    }
}

fn draw_mask(random: &mut Random, colours: usize, at_least_one: bool) -> u8 {
    let all = !(0xFF_u32 >> colours) as u8;
    let mask = match random.below(8) {
        0 => 0,
        1 => all,
        _ => random.byte() & all,
    };
    if mask == 0 && at_least_one {
        return 0x80 >> random.below(colours);
    }
    mask
}

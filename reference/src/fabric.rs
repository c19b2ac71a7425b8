//! A fabric, and the tests that a file and an open table share.

use crate::channel_ends::lowest_faulty_channel;
use crate::circle::has_circle;
use crate::component::{Component, MOST_COLOURS};
use crate::refusal::Refusal;

pub const MOST_COMPONENTS: usize = 128;
pub const MOST_CHANNELS: usize = 255;

pub struct Fabric {
    pub colours: usize,
    pub channels: usize,
    pub components: Vec<Component>,
}

impl Fabric {
    /// Refusals 6, 7 and 8, in this order. A component that cannot even be read is `None`.
    pub fn tested(
        colours: usize,
        channels: usize,
        read: impl Iterator<Item = Option<Component>>,
    ) -> Result<Fabric, Refusal> {
        let mut components = Vec::new();
        for (place, component) in read.enumerate() {
            match component {
                Some(component) if component.is_good(colours, channels) => {
                    components.push(component)
                }
                _ => return Err(Refusal::BadField { component: place }),
            }
        }
        if let Some(channel) = lowest_faulty_channel(&components, channels) {
            return Err(Refusal::ChannelEnds { channel });
        }
        if has_circle(&components) {
            return Err(Refusal::Circle);
        }
        Ok(Fabric {
            colours,
            channels,
            components,
        })
    }
}

/// Refusal 3: the count of components, of channels or of colours is out of its range.
pub fn test_ranges(components: usize, channels: u64, colours: u64) -> Result<(), Refusal> {
    let good = (1..=MOST_COMPONENTS).contains(&components)
        && (1..=MOST_CHANNELS as u64).contains(&channels)
        && (1..=MOST_COLOURS as u64).contains(&colours);
    good.then_some(()).ok_or(Refusal::CountRange)
}

//! Refusal 3: a count out of its range.

use reference::component::MOST_COLOURS;
use reference::fabric::{MOST_CHANNELS, MOST_COMPONENTS};
use reference::netlist::counted;

pub fn why(components: usize, channels: usize, colours: usize) -> Option<String> {
    let counts = [
        (components, "component", MOST_COMPONENTS),
        (channels, "channel", MOST_CHANNELS),
        (colours, "colour", MOST_COLOURS),
    ];
    let wrong = counts
        .into_iter()
        .find(|(count, _, most)| !(1..=*most).contains(count));
    wrong.map(|(count, what, most)| {
        let count = counted(count, what);
        format!("{count}, but a fabric has 1 to {most}")
    })
}

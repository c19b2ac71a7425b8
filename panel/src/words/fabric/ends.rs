//! Refusal 7: the ends of a channel are not one output and one input.

use reference::Component;

use super::Subject;
use crate::words::listed;

/// Of more components with an end on one channel only so many are named.
const MOST_NAMED: usize = 3;

pub fn why(subject: &Subject, channel: usize) -> Option<String> {
    let components = &subject.fabric.components;
    let outputs = ends(components, channel, Component::outputs);
    let inputs = ends(components, channel, Component::inputs);
    let wrong = match (&outputs[..], &inputs[..]) {
        ([], []) => "no output and no input of any component".to_string(),
        _ => {
            let sides = [("output", &outputs), ("input", &inputs)];
            let wrong = sides.map(|(side, ends)| wrong_side(subject, side, ends));
            let wrong: Vec<String> = wrong.into_iter().flatten().collect();
            wrong.join(", and ")
        }
    };
    let channel = subject.channel(channel);
    (!wrong.is_empty()).then(|| format!("{channel} is {wrong}"))
}

/// The components with such an end on the channel, once for each end.
fn ends(
    components: &[Component],
    channel: usize,
    side: impl Fn(&Component) -> &[u8],
) -> Vec<usize> {
    let all = components.iter().enumerate();
    all.flat_map(|(place, component)| {
        let ends = side(component).iter();
        ends.filter(|port| usize::from(**port) == channel)
            .map(move |_| place)
    })
    .collect()
}

/// `None` if there is just one.
fn wrong_side(subject: &Subject, side: &str, ends: &[usize]) -> Option<String> {
    match ends {
        [] => Some(format!("no {side} of any component")),
        [_] => None,
        _ => Some(format!("the {side} {}", all_named(subject, ends))),
    }
}

/// `of queue 'a' and of fork 'b' twice`
fn all_named(subject: &Subject, ends: &[usize]) -> String {
    let by_component: Vec<&[usize]> = ends.chunk_by(|one, next| one == next).collect();
    let named = by_component.iter().take(MOST_NAMED).map(|ends| {
        let twice = if ends.len() > 1 { " twice" } else { "" };
        format!("of {}{twice}", subject.component(ends[0]))
    });
    let mut named: Vec<String> = named.collect();
    let others = by_component.len().saturating_sub(MOST_NAMED);
    if others > 0 {
        named.push(format!("of {others} more"));
    }
    listed(&named)
}

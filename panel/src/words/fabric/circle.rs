//! Refusal 8: signals that wait for each other.

use reference::shortest_circle::shortest_circle;

use super::Subject;

pub fn why(subject: &Subject) -> Option<String> {
    let circle = shortest_circle(&subject.fabric.components)?;
    let signals: Vec<String> = circle
        .into_iter()
        .map(|signal| subject.signal(signal))
        .collect();
    Some(match &signals[..] {
        [alone] => format!("a signal waits for itself: {alone}"),
        all => format!(
            "the signals wait for each other in a circle: {}",
            all.join(", ")
        ),
    })
}

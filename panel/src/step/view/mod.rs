//! The panel in lines: its title, sums, queues, choosers and channels.

mod channels;
mod choosers;
mod line;
mod packets;
mod queues;
mod sums;
mod table;

use super::session::Session;

pub use line::{text, Line, Span, Style, BOLD, PLAIN};

const LAST_STEP: &str = "last step";
const NEXT_STEP: &str = "next step";

/// No file name takes more of the title.
const LONGEST_PATH: usize = 36;

/// Room for lines of any length.
pub const NO_LIMIT: usize = usize::MAX;

pub struct Body {
    pub lines: Vec<Line>,
    /// Where the selected chooser stands.
    pub selected: Option<usize>,
}

pub fn title(session: &Session) -> String {
    let path = session.path.display().to_string();
    let trail = &session.walk.trail;
    let mut title = format!("{}   step {}", last_part(&path), trail.len());
    if let Some(run) = trail.last_run() {
        title += &format!("   seed {}", run.seed);
    }
    title
}

fn last_part(path: &str) -> String {
    match path.chars().count().checked_sub(LONGEST_PATH) {
        None | Some(0) => path.to_string(),
        Some(over) => "..".chars().chain(path.chars().skip(over + 2)).collect(),
    }
}

/// `selected` is a place among the choosers, `room` how long a line may be.
pub fn body(session: &Session, selected: Option<usize>, room: usize) -> Body {
    let mut lines = sums::lines(session, room);
    let mut add = |part: Vec<Line>| {
        if !part.is_empty() {
            lines.push(Vec::new());
        }
        let first = lines.len();
        lines.extend(part);
        first
    };
    add(queues::lines(session, room));
    let heading = add(choosers::lines(session, selected, room));
    add(channels::lines(session, room));
    Body {
        lines,
        selected: selected.map(|place| heading + 1 + place),
    }
}

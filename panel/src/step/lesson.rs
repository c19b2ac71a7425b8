//! Commands a line, from a file or from standard input: each is said again and followed by the panel
//! as text.

use std::io::BufRead;

use super::command;
use super::session::{Done, Session};
use super::view::{self, NO_LIMIT};
use crate::failure::Failure;
use crate::files::BYTE_ORDER_MARK;
use crate::output::print;

/// `name` is what the lines are called where one is wrong.
pub fn play(session: &mut Session, name: &str, lines: impl BufRead) -> Result<(), Failure> {
    print(&picture(session))?;
    for (place, line) in lines.lines().enumerate() {
        let at = |failure: Failure| failure.at(&format!("{name}:{}", place + 1));
        let line = line.map_err(|error| at(Failure::Input(error.to_string())))?;
        let line = line.trim_start_matches(BYTE_ORDER_MARK);
        let read = command::read(line, &session.opened.netlist);
        let Some(command) = read.map_err(|message| at(Failure::Input(message)))? else {
            continue;
        };
        let mut text = format!("\n> {}\n", line.trim());
        let done = session.perform(&command).map_err(at)?;
        match &done {
            Done::Said(said) if said.is_empty() => {}
            Done::Said(said) => text += &format!("{said}\n"),
            Done::Quit => return print(&text),
        }
        print(&(text + &picture(session)))?;
    }
    Ok(())
}

fn picture(session: &Session) -> String {
    let lines = view::body(session, None, NO_LIMIT).lines;
    let body: String = lines.iter().map(|line| view::text(line) + "\n").collect();
    format!("{}\n\n{body}", view::title(session))
}

//! Stepping on the screen.

mod controls;
mod help;
mod layout;
mod prompt;

use std::ffi::c_int;
use std::io;

use super::session::Session;
use super::terminal::{end_by, Event, Palette, Terminal};
use crate::failure::Failure;
use controls::{After, Screen};

pub fn show(session: Session) -> Result<(), Failure> {
    let palette = match std::env::var_os("NO_COLOR") {
        Some(word) if !word.is_empty() => Palette::without_colours(),
        _ => Palette::new(&session.opened.netlist.names.colours),
    };
    let mut terminal = Terminal::take_over(io::stdin(), io::stdout(), palette).map_err(lost)?;
    let ended_by = until_the_end(session, &mut terminal)?;
    drop(terminal);
    match ended_by {
        Some(signal) => end_by(signal),
        None => Ok(()),
    }
}

/// Hands back the signal that ended it, if one did.
fn until_the_end(session: Session, terminal: &mut Terminal) -> Result<Option<c_int>, Failure> {
    let mut screen = Screen::new(session, terminal.size());
    loop {
        terminal.show(screen.frame()).map_err(lost)?;
        match terminal.event().map_err(lost)? {
            Event::Key(key) => match screen.key(key)? {
                After::Goes => {}
                After::DrawsAgain => terminal.forget(),
                After::Stops => terminal.stop().map_err(lost)?,
                After::Ends => return Ok(None),
            },
            Event::Resized => screen.resize(terminal.size()),
            Event::Closed => return Ok(None),
            Event::End(signal) => return Ok(Some(signal)),
        }
    }
}

fn lost(error: io::Error) -> Failure {
    Failure::Input(format!("the terminal: {error}"))
}

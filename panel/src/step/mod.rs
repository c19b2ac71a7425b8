//! Steps a panel's fabric: on the screen, or by the commands of a lesson.

mod choosers;
mod command;
mod lesson;
mod list;
mod number;
mod one_step;
mod screen;
mod session;
mod terminal;
mod trail;
mod view;
mod walk;

#[cfg(test)]
mod tests;

use std::io::{self, BufReader, IsTerminal};
use std::path::Path;

use crate::arguments::{asks_for_help, no_option};
use crate::failure::Failure;
use crate::files;
use crate::output::print;
use session::Session;

const HELP: &str = "\
panel step [FOLDER [LESSON]]

Steps FOLDER's fabric.bin (by default the current folder's). On a terminal it
is shown on the screen; '?' lists the keys. With a LESSON, or where standard
input or output is no terminal that can draw, it takes commands, one a line
('#' begins a comment), and prints the panel after each:

  choose NAME CHOICE      of a source a colour or none, of a sink take or no,
                          of a merge the channel of an input
  step                    takes a step; the choices stay set
  step NAME=CHOICE ..     sets these choices and no others, and takes a step
  run COUNT [seed SEED]   takes steps with choices drawn at random; the same
                          seed gives the same run; what was set stays set
  back [COUNT]            goes back; the choices are those of the first step
                          that was taken back, so that it can be taken again
  save FILE               writes the steps taken, a line 'step NAME=CHOICE ..'
                          each: a lesson
  load FILE               takes such steps from the start
  show                    prints the panel
  quit                    ends

Nothing is written over by 'save' but an earlier list. Exit code: 0 ended, 1 a
choice is refused, 2 a line or file cannot be read or written.
";

pub fn command(words: &[String]) -> Result<(), Failure> {
    if asks_for_help(words) {
        return print(HELP);
    }
    no_option(words, "step")?;
    match words {
        [] => step(Session::open(Path::new(""))?),
        [folder] => step(Session::open(Path::new(folder))?),
        [folder, lesson] => play(&mut Session::open(Path::new(folder))?, lesson),
        [_, _, more, ..] => {
            let message = format!("'{more}' is one word too many after 'step FOLDER LESSON'");
            Err(Failure::Usage(message))
        }
    }
}

fn play(session: &mut Session, lesson: &str) -> Result<(), Failure> {
    let file = files::open(Path::new(lesson))?;
    lesson::play(session, lesson, BufReader::new(file))
}

fn step(mut session: Session) -> Result<(), Failure> {
    if io::stdin().is_terminal() && io::stdout().is_terminal() && can_draw() {
        return screen::show(session);
    }
    lesson::play(&mut session, "standard input", io::stdin().lock())
}

/// Whether the terminal says that it is more than paper.
fn can_draw() -> bool {
    std::env::var("TERM").is_ok_and(|name| !["", "dumb"].contains(&name.as_str()))
}

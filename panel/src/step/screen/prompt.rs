//! A line that is typed on the screen, and the command that it makes.

use reference::netlist::Netlist;

use crate::step::command::{self, Command};
use crate::step::terminal::Key;

#[derive(Clone, Copy)]
pub enum Purpose {
    Save,
    Load,
    Command,
}

pub struct Prompt {
    pub purpose: Purpose,
    pub text: String,
}

pub enum Typed {
    More,
    Cancelled,
    Entered,
}

impl Prompt {
    pub fn question(&self) -> &'static str {
        match self.purpose {
            Purpose::Save => "save the steps to: ",
            Purpose::Load => "load steps from: ",
            Purpose::Command => "command: ",
        }
    }

    pub fn key(&mut self, key: Key) -> Typed {
        match key {
            Key::Enter => return Typed::Entered,
            Key::Escape => return Typed::Cancelled,
            Key::Backspace => {
                self.text.pop();
            }
            Key::Control('u') => self.text.clear(),
            Key::Character(character) => self.text.push(character),
            _ => {}
        }
        Typed::More
    }

    /// `None` if no command was typed. A file's name may have blanks.
    pub fn command(self, netlist: &Netlist) -> Result<Option<Command>, String> {
        let Prompt { purpose, text } = self;
        match purpose {
            Purpose::Command => command::read(&text, netlist),
            _ if text.is_empty() => Err("no file is named".to_string()),
            Purpose::Save => Ok(Some(Command::Save(text.into()))),
            Purpose::Load => Ok(Some(Command::Load(text.into()))),
        }
    }
}

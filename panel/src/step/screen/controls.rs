//! What the keys do.

use super::prompt::{Prompt, Purpose, Typed};
use crate::failure::Failure;
use crate::step::choosers::offered;
use crate::step::command::{Choice, Command};
use crate::step::session::{Done, Session};
use crate::step::terminal::{Key, Size};

/// Where a list of steps is saved unless another file is named.
const LIST: &str = "choices.txt";

/// How many steps a key runs.
const RUN: usize = 100;

/// What a key leads to.
/// Nothing interrupts a run, so it takes a second at most.
const LONGEST_RUN: usize = 10_000;

pub enum After {
    Goes,
    DrawsAgain,
    Stops,
    Ends,
}

pub enum Mode {
    Panel,
    Help,
    Asks(Prompt),
}

pub struct Screen {
    pub session: Session,
    pub mode: Mode,
    /// A place among the choosers.
    pub selected: usize,
    /// The first line of the panel that is seen.
    pub top: usize,
    pub message: String,
    pub size: Size,
}

impl Screen {
    pub fn new(session: Session, size: Size) -> Screen {
        Screen {
            session,
            mode: Mode::Panel,
            selected: 0,
            top: 0,
            message: String::new(),
            size,
        }
    }

    pub fn key(&mut self, key: Key) -> Result<After, Failure> {
        match (&mut self.mode, key) {
            (_, Key::Control('c')) => return Ok(After::Ends),
            (_, Key::Control('l')) => return Ok(After::DrawsAgain),
            (_, Key::Control('z')) => return Ok(After::Stops),
            (Mode::Panel, _) => return self.panel_key(key),
            (Mode::Help, _) => self.mode = Mode::Panel,
            (Mode::Asks(prompt), _) => match prompt.key(key) {
                Typed::More => {}
                Typed::Cancelled => self.mode = Mode::Panel,
                Typed::Entered => return self.entered(),
            },
        }
        Ok(After::Goes)
    }

    fn panel_key(&mut self, key: Key) -> Result<After, Failure> {
        self.message.clear();
        match key {
            Key::Up => self.select(self.selected.saturating_sub(1)),
            Key::Down => self.select(self.selected + 1),
            Key::PageUp => self.scroll_to(self.top.saturating_sub(self.page())),
            Key::PageDown => self.scroll_to(self.top + self.page()),
            Key::Character('w') => self.ask_for_file(Purpose::Save),
            Key::Character('l') => self.ask_for_file(Purpose::Load),
            Key::Character(':') => self.ask(Purpose::Command, String::new()),
            Key::Character('?') => self.mode = Mode::Help,
            _ => {
                let command = self.command_of(key);
                return command.map_or(Ok(After::Goes), |command| self.perform(&command));
            }
        }
        Ok(After::Goes)
    }

    fn command_of(&mut self, key: Key) -> Option<Command> {
        let command = match key {
            Key::Left => return self.turned(-1),
            Key::Right | Key::Character(' ') => return self.turned(1),
            Key::Enter | Key::Character('s') => Command::Step(None),
            Key::Character('r') => Command::Run {
                count: RUN,
                seed: None,
            },
            Key::Character('b') => Command::Back(1),
            Key::Character('B') => Command::BackBeforeRun,
            Key::Character('q') => Command::Quit,
            _ => return None,
        };
        Some(command)
    }

    fn ask(&mut self, purpose: Purpose, text: String) {
        self.mode = Mode::Asks(Prompt { purpose, text });
    }

    fn ask_for_file(&mut self, purpose: Purpose) {
        let usual = self.session.path.with_file_name(LIST);
        self.ask(purpose, usual.display().to_string());
    }

    fn entered(&mut self) -> Result<After, Failure> {
        if let Mode::Asks(prompt) = std::mem::replace(&mut self.mode, Mode::Panel) {
            match prompt.command(&self.session.opened.netlist) {
                Ok(Some(command)) => return self.perform(&command),
                Ok(None) => {}
                Err(message) => self.message = message,
            }
        }
        Ok(After::Goes)
    }

    /// What is refused is said; only a difference ends the program.
    fn perform(&mut self, command: &Command) -> Result<After, Failure> {
        if let Command::Run { count, .. } = command {
            if *count > LONGEST_RUN {
                self.message = format!("a run on the screen takes at most {LONGEST_RUN} steps");
                return Ok(After::Goes);
            }
        }
        match self.session.perform(command) {
            Ok(Done::Said(said)) => self.message = said,
            Ok(Done::Quit) => return Ok(After::Ends),
            Err(failure @ Failure::Differ(_)) => return Err(failure),
            Err(failure) => self.message = failure.message().to_string(),
        }
        // Queues that are emptier take fewer lines.
        self.scroll_to(self.top);
        Ok(After::Goes)
    }

    fn select(&mut self, chooser: usize) {
        self.selected = chooser.min(self.session.choosers.len().saturating_sub(1));
        self.scroll_to_selected();
    }

    /// The selected choice, changed to the one so far after it.
    fn turned(&mut self, by: isize) -> Option<Command> {
        self.scroll_to_selected();
        let component = *self.session.choosers.get(self.selected)?;
        let bytes = offered(&self.session.opened.netlist.fabric.components[component]);
        let now = self.session.walk.next.choices[component];
        let place = bytes.iter().position(|&byte| byte == now)? as isize;
        let byte = bytes[(place + by).rem_euclid(bytes.len() as isize) as usize];
        Some(Command::Choose(Choice { component, byte }))
    }
}

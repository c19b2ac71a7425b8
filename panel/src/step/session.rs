//! A panel's folder being stepped: its fabric, its sums, and what commands do.

use std::hash::{BuildHasher, RandomState};
use std::path::{Path, PathBuf};

use reference::netlist::counted;

use super::choosers::choosers;
use super::command::Command;
use super::list;
use super::walk::Walk;
use crate::failure::Failure;
use crate::files::{self, FABRIC};
use crate::opened::{self, Opened};
use crate::proofs::{self, Sums};

/// Seeds of runs that are given none are below it, so that they are easily typed.
const NEW_SEEDS: u64 = 1_000_000;

pub struct Session {
    pub path: PathBuf,
    pub opened: Opened,
    pub sums: Sums,
    pub choosers: Vec<usize>,
    pub walk: Walk,
}

pub enum Done {
    /// With what is to be said, if anything.
    Said(String),
    Quit,
}

impl Session {
    pub fn open(folder: &Path) -> Result<Session, Failure> {
        let path = folder.join(FABRIC);
        let opened = opened::open(&path)?;
        Ok(Session {
            path,
            sums: proofs::sums(folder, &opened.file)?,
            choosers: choosers(&opened.netlist.fabric),
            walk: Walk::from_start(&opened)?,
            opened,
        })
    }

    /// A refused choice or a wrong file leaves all as it was.
    pub fn perform(&mut self, command: &Command) -> Result<Done, Failure> {
        let Session { opened, walk, .. } = self;
        let mut said = String::new();
        match command {
            Command::Choose(choice) => walk.choose(opened, *choice)?,
            Command::Step(None) => walk.step(opened)?,
            Command::Step(Some(choices)) => {
                walk.choose_only(opened, choices)?;
                walk.step(opened)?;
            }
            Command::Run { count, seed } => said = self.run(*count, *seed)?,
            Command::Back(count) => said = self.back(*count)?,
            Command::BackBeforeRun => said = self.back_before_run()?,
            Command::Save(file) => said = self.save(file)?,
            Command::Load(file) => said = self.load(file)?,
            Command::Show => {}
            Command::Quit => return Ok(Done::Quit),
        }
        Ok(Done::Said(said))
    }

    fn run(&mut self, count: usize, seed: Option<u64>) -> Result<String, Failure> {
        let seed = seed.unwrap_or_else(|| RandomState::new().hash_one(0) % NEW_SEEDS);
        self.walk.run(&self.opened, count, seed)?;
        Ok(format!(
            "ran {} at random, seed {seed}",
            counted(count, "step")
        ))
    }

    /// As far back as there are steps.
    fn back(&mut self, count: usize) -> Result<String, Failure> {
        let steps = self.walk.trail.len();
        match count.min(steps) {
            0 if steps == 0 => Ok("this is the start".to_string()),
            0 => Ok(String::new()),
            count => self.back_to(steps - count),
        }
    }

    fn back_before_run(&mut self) -> Result<String, Failure> {
        match self.walk.trail.last_run() {
            Some(run) => self.back_to(run.after),
            None => Ok("there was no random run".to_string()),
        }
    }

    fn back_to(&mut self, steps: usize) -> Result<String, Failure> {
        self.walk.back_to(&self.opened, steps)?;
        Ok(format!("back at step {steps}"))
    }

    /// Writes over nothing but an earlier list.
    fn save(&self, file: &Path) -> Result<String, Failure> {
        if let Some(bytes) = files::read_if_there(file)? {
            let text = String::from_utf8(bytes).ok();
            let list = text.and_then(|text| list::read(&text, &self.opened.netlist).ok());
            if list.is_none() {
                let message = "this file is there already, and is no list of steps";
                return Err(Failure::Input(format!("{}: {message}", file.display())));
            }
        }
        let trail = &self.walk.trail;
        let text = list::write(&self.opened.netlist, trail.steps());
        files::write(file, text.as_bytes())?;
        let steps = counted(trail.len(), "step");
        Ok(format!("saved {steps} to {}", file.display()))
    }

    fn load(&mut self, file: &Path) -> Result<String, Failure> {
        let at = |line| format!("{}:{line}", file.display());
        let steps = list::read(&files::read_text(file)?, &self.opened.netlist)
            .map_err(|(line, message)| Failure::Input(message).at(&at(line)))?;
        let mut walk = Walk::from_start(&self.opened)?;
        for (line, choices) in &steps {
            let refused = |failure: Failure| failure.at(&at(*line));
            if let Some(choices) = choices {
                walk.choose_only(&self.opened, choices).map_err(refused)?;
            }
            walk.step(&self.opened).map_err(refused)?;
        }
        self.walk = walk;
        let steps = counted(steps.len(), "step");
        Ok(format!("loaded {steps} from {}", file.display()))
    }
}

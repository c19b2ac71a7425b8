//! A command, from the words of a line.

use std::path::PathBuf;

use reference::netlist::{quoted, Netlist};

use super::choosers;
use super::number::number;

#[derive(Clone, Copy, PartialEq, Eq, Debug)]
pub struct Choice {
    pub component: usize,
    pub byte: u8,
}

#[derive(Clone, PartialEq, Eq, Debug)]
pub enum Command {
    Choose(Choice),
    /// With the choices as they are set, or with these alone.
    Step(Option<Vec<Choice>>),
    /// With this seed, or a new one.
    Run {
        count: usize,
        seed: Option<u64>,
    },
    Back(usize),
    BackBeforeRun,
    Save(PathBuf),
    Load(PathBuf),
    Show,
    Quit,
}

/// What a run takes at most.
const MOST_STEPS: usize = 100_000;

const COMMANDS: &str = "choose, step, run, back, save, load, show, quit";

/// `None` for a line that says nothing. A `#` begins a comment.
pub fn read(line: &str, netlist: &Netlist) -> Result<Option<Command>, String> {
    let said = line.split('#').next().unwrap_or_default();
    let words: Vec<&str> = said.split_whitespace().collect();
    let Some((&command, words)) = words.split_first() else {
        return Ok(None);
    };
    let read = match (command, words) {
        ("choose", [name, word]) => Command::Choose(choice(netlist, name, word)?),
        ("step", []) => Command::Step(None),
        ("step", words) => Command::Step(Some(choices(netlist, words)?)),
        ("run", [count]) => run(count, None)?,
        ("run", [count, "seed", seed]) => run(count, Some(number(seed)?))?,
        ("back", []) => Command::Back(1),
        ("back", [count]) => Command::Back(number(count)?),
        ("save", [file]) => Command::Save(file.into()),
        ("load", [file]) => Command::Load(file.into()),
        ("show", []) => Command::Show,
        ("quit", []) => Command::Quit,
        _ => return Err(wrong(command)),
    };
    Ok(Some(read))
}

fn wrong(command: &str) -> String {
    let form = match command {
        "choose" => "choose NAME CHOICE",
        "run" => "run COUNT [seed SEED]",
        "back" => "back [COUNT]",
        "save" => "save FILE",
        "load" => "load FILE",
        "show" | "quit" => return format!("nothing comes after '{command}'"),
        _ => return format!("{} is no command: {COMMANDS}", quoted(command)),
    };
    format!("'{command}' is written: {form}")
}

fn run(count: &str, seed: Option<u64>) -> Result<Command, String> {
    match number(count)? {
        count if count <= MOST_STEPS => Ok(Command::Run { count, seed }),
        count => Err(format!(
            "'{count}' is too many: a run takes at most {MOST_STEPS} steps"
        )),
    }
}

fn choices(netlist: &Netlist, words: &[&str]) -> Result<Vec<Choice>, String> {
    let mut read: Vec<Choice> = Vec::new();
    for word in words {
        let (name, chosen) = word
            .split_once('=')
            .ok_or_else(|| format!("{} is no choice, such as NAME=CHOICE", quoted(word)))?;
        let choice = choice(netlist, name, chosen)?;
        if read.iter().any(|other| other.component == choice.component) {
            return Err(format!("'{name}' chooses twice"));
        }
        read.push(choice);
    }
    Ok(read)
}

fn choice(netlist: &Netlist, name: &str, word: &str) -> Result<Choice, String> {
    let names = &netlist.names.components;
    let component = names.iter().position(|other| other == name);
    let component = component.ok_or_else(|| format!("{} is no component", quoted(name)))?;
    Ok(Choice {
        component,
        byte: choosers::byte(netlist, component, word)?,
    })
}

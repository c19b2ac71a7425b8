//! A list of steps as text: a line `step alarms=0 porter=take` for each, which is a lesson too.

use reference::netlist::{quoted, Netlist};

use super::choosers::{choosers, word};
use super::command::{self, Choice, Command};

pub fn write<'a>(netlist: &Netlist, steps: impl Iterator<Item = &'a [u8]>) -> String {
    let choosers = choosers(&netlist.fabric);
    steps.map(|step| line(netlist, &choosers, step)).collect()
}

/// The choices other than none, no and the first input. There is at least one wherever there are
/// choosers: `step` alone keeps the choices of the step before it.
fn line(netlist: &Netlist, choosers: &[usize], step: &[u8]) -> String {
    let chosen: Vec<usize> = choosers.iter().copied().filter(|&c| step[c] != 0).collect();
    let first = &choosers[..choosers.len().min(1)];
    let said = if chosen.is_empty() { first } else { &chosen };
    let mut line = "step".to_string();
    for &component in said {
        let name = &netlist.names.components[component];
        line += &format!(" {name}={}", word(netlist, component, step[component]));
    }
    line + "\n"
}

/// A line's number, from 1, and its choices, `None` for those of the step before it.
type Step = (usize, Option<Vec<Choice>>);

/// Else a line's number and what is wrong there.
pub fn read(text: &str, netlist: &Netlist) -> Result<Vec<Step>, (usize, String)> {
    let mut steps = Vec::new();
    for (place, line) in text.lines().enumerate() {
        let wrong = |message| (place + 1, message);
        match command::read(line, netlist).map_err(wrong)? {
            None => {}
            Some(Command::Step(choices)) => steps.push((place + 1, choices)),
            Some(_) => {
                let word = line.split_whitespace().next().unwrap_or_default();
                let word = quoted(word);
                return Err(wrong(format!("{word} is no step: a list has steps alone")));
            }
        }
    }
    Ok(steps)
}

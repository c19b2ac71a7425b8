//! Where a fabric stands after the steps taken, and the step to come.

use reference::random::Random;

use super::choosers::{drawn, no_choices, offered};
use super::command::Choice;
use super::one_step::OneStep;
use super::trail::Trail;
use crate::calls;
use crate::failure::Failure;
use crate::opened::Opened;
use crate::words;

pub struct Walk {
    pub state: Vec<u8>,
    pub last: Option<OneStep>,
    /// Under the choices that are set.
    pub next: OneStep,
    pub trail: Trail,
}

impl Walk {
    pub fn from_start(opened: &Opened) -> Result<Walk, Failure> {
        let fabric = &opened.netlist.fabric;
        let state = calls::start(&opened.file)
            .map_err(|refused| Failure::Refused(words::fabric::of_file(refused, &opened.file)))?;
        let next = OneStep::of(opened, &state, no_choices(fabric))?;
        Ok(Walk {
            state,
            last: None,
            next,
            trail: Trail::new(fabric.components.len()),
        })
    }

    /// Changes one choice.
    pub fn choose(&mut self, opened: &Opened, choice: Choice) -> Result<(), Failure> {
        let mut choices = self.next.choices.clone();
        choices[choice.component] = choice.byte;
        self.look_at(opened, choices)
    }

    /// Sets these choices and no others.
    pub fn choose_only(&mut self, opened: &Opened, chosen: &[Choice]) -> Result<(), Failure> {
        let mut choices = no_choices(&opened.netlist.fabric);
        for choice in chosen {
            choices[choice.component] = choice.byte;
        }
        self.look_at(opened, choices)
    }

    /// Takes the step to come. The choices stay set.
    pub fn step(&mut self, opened: &Opened) -> Result<(), Failure> {
        let choices = self.next.choices.clone();
        let following = OneStep::of(opened, &self.next.after, choices)?;
        let taken = std::mem::replace(&mut self.next, following);
        self.take(taken);
        Ok(())
    }

    /// Takes steps with drawn choices. Those that were set stay set.
    pub fn run(&mut self, opened: &Opened, count: usize, seed: u64) -> Result<(), Failure> {
        let components = opened.netlist.fabric.components.iter();
        let offered: Vec<Vec<u8>> = components.map(offered).collect();
        let random = &mut Random::new(seed, 0);
        if count > 0 {
            self.trail.begin_run(seed);
        }
        let run = (0..count).try_for_each(|_| {
            let choices = drawn(random, &offered);
            self.take(OneStep::of(opened, &self.state, choices)?);
            Ok(())
        });
        let set = self.next.choices.clone();
        run.and(self.look_at(opened, set))
    }

    /// Goes back to so many steps, fewer than were taken. The choices are those of the step after
    /// them, so that it can be taken again.
    pub fn back_to(&mut self, opened: &Opened, steps: usize) -> Result<(), Failure> {
        let choices = self.trail.choices(steps).to_vec();
        let state_before = |step| self.trail.state_before(&opened.file, step);
        let (state, last) = match steps.checked_sub(1) {
            None => (state_before(0), None),
            Some(before) => {
                let choices = self.trail.choices(before).to_vec();
                let last = OneStep::of(opened, &state_before(before), choices)?;
                (last.after.clone(), Some(last))
            }
        };
        self.next = OneStep::of(opened, &state, choices)?;
        (self.state, self.last) = (state, last);
        self.trail.cut(steps);
        Ok(())
    }

    fn look_at(&mut self, opened: &Opened, choices: Vec<u8>) -> Result<(), Failure> {
        self.next = OneStep::of(opened, &self.state, choices)?;
        Ok(())
    }

    fn take(&mut self, step: OneStep) {
        self.trail.push(&self.state, &step.choices);
        self.state.clone_from(&step.after);
        self.last = Some(step);
    }
}

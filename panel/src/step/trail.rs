//! The steps taken since start: the choices of each, and now and then the state before one, from
//! which those after it are found again.

use crate::calls;

/// The state before every so many steps is kept: a hundred thousand steps of 128 components take 26
/// million bytes, and going back takes no more steps than this.
const KEPT_EVERY: usize = 64;

pub struct Run {
    /// How many steps were taken before it.
    pub after: usize,
    pub seed: u64,
}

pub struct Trail {
    /// The choices of a step.
    components: usize,
    choices: Vec<u8>,
    kept: Vec<Vec<u8>>,
    /// The random runs.
    runs: Vec<Run>,
}

impl Trail {
    pub fn new(components: usize) -> Trail {
        Trail {
            components,
            choices: Vec::new(),
            kept: Vec::new(),
            runs: Vec::new(),
        }
    }

    pub fn len(&self) -> usize {
        self.choices.len() / self.components
    }

    pub fn push(&mut self, state_before: &[u8], choices: &[u8]) {
        if self.len().is_multiple_of(KEPT_EVERY) {
            self.kept.push(state_before.to_vec());
        }
        self.choices.extend(choices);
    }

    pub fn steps(&self) -> impl Iterator<Item = &[u8]> {
        self.choices.chunks_exact(self.components)
    }

    /// The choices of a step, the first one being 0.
    pub fn choices(&self, step: usize) -> &[u8] {
        &self.choices[self.components * step..][..self.components]
    }

    pub fn state_before(&self, fabric: &[u8], step: usize) -> Vec<u8> {
        let kept = step / KEPT_EVERY;
        let mut state = self.kept[kept].clone();
        for again in KEPT_EVERY * kept..step {
            calls::step(fabric, &mut state, self.choices(again)).expect("a step taken before");
        }
        state
    }

    /// Keeps only the first steps.
    pub fn cut(&mut self, steps: usize) {
        self.choices.truncate(self.components * steps);
        self.kept.truncate(steps.div_ceil(KEPT_EVERY));
        self.runs.retain(|run| run.after < steps);
    }

    pub fn begin_run(&mut self, seed: u64) {
        let after = self.len();
        self.runs.push(Run { after, seed });
    }

    pub fn last_run(&self) -> Option<&Run> {
        self.runs.last()
    }
}

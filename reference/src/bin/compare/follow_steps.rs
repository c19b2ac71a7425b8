//! The steps of accepted calls, taken up to be followed through the list.

use reference::packed::read_file;
use reference::state_calls::make_step;

use crate::case::Call;
use crate::difference::Difference;
use crate::followed_moves::FollowedMoves;
use crate::library_side;
use crate::list::{List, Walked};
use crate::trial::{Trial, FABRIC, GIVEN};

impl Trial {
    /// The signals are worked out from the library's state before the call; inside a run from the
    /// second program's states, the last of which has been compared with the library's. What the
    /// library moved has been compared with what these signals let move.
    pub fn follow_steps(
        &self,
        list: &mut List,
        call: Call,
        state: &[u8],
    ) -> Result<(), Difference> {
        match call {
            Call::Start => list.signals.start(),
            Call::Step | Call::Run if list.started => {
                let walked = list.walked.get_or_insert_with(|| self.walked());
                let fabric = &walked.fabric;
                let mut states = state.as_chunks().0.to_vec();
                let choices = self.parts[GIVEN].bytes();
                let steps = choices.chunks_exact(fabric.components.len());
                for (number, choices) in steps.enumerate() {
                    let held = states.clone();
                    let channels = make_step(fabric, &mut states, choices);
                    walked.moves.step(&channels, number == 0)?;
                    let signals = &mut list.signals;
                    signals.step(fabric, &held, choices, channels, number == 0)?;
                }
            }
            _ => {}
        }
        Ok(())
    }

    fn walked(&self) -> Walked {
        let fabric = read_file(self.parts[FABRIC].bytes()).expect("an accepted file");
        let sets = library_side::sets(&self.parts, fabric.channels);
        let moves = FollowedMoves::new(&fabric, sets);
        Walked { fabric, moves }
    }
}

//! What the documents themselves say of a call, against what the library has answered and written.

use reference::state::COMPONENT_STATE;

use crate::answer::Answer;
use crate::case::Expected;
use crate::difference::{same, same_bytes, Difference};
use crate::trial::{Trial, RESULT, STATE};

impl Trial {
    pub fn as_expected(&self, expected: &Expected, answer: &Answer) -> Result<(), Difference> {
        let number_and_place = |number, place| {
            same("number and the documents' own", answer.number, number)?;
            same("place and the documents' own", answer.place, place)
        };
        let result = |bytes: &[u8]| {
            number_and_place(0, 0)?;
            let written = self.parts[RESULT].bytes();
            same_bytes("result and the documents' own", written, bytes)
        };
        match expected {
            Expected::Nothing => Ok(()),
            Expected::NumberAndPlace(number, place) => number_and_place(*number, *place),
            Expected::Result(bytes) => result(bytes),
            Expected::Step { moves, first_bytes } => {
                result(moves)?;
                let state = self.parts[STATE].bytes().iter().step_by(COMPONENT_STATE);
                let found: Vec<u8> = state.copied().collect();
                same_bytes("state and the documents' own", &found, first_bytes)
            }
            Expected::Listing(text) => {
                number_and_place(0, 0)?;
                let listing = self.accepted_sum(answer).listing();
                same("listing and the documents' own", &listing, text)
            }
            Expected::Ceiling(ceiling) => {
                number_and_place(0, 0)?;
                same("ceiling and the documents' own", answer.ceiling, *ceiling)
            }
            Expected::Blocks(texts) => {
                number_and_place(0, 0)?;
                let blocks = self.judged_blocks();
                let found: String = blocks.iter().map(|block| block.listing()).collect();
                same("blocks and the documents' own", &found, &texts.concat())
            }
        }
    }
}

//! Unpack after pack, and pack after unpack.

use reference::open_table::ROW;
use reference::packed::{file_length, RECORD};

use crate::answer::Answer;
use crate::case::{Call, Case, Lent};
use crate::difference::{same, same_bytes, Difference};
use crate::trial::{Trial, FABRIC, RESULT};

/// What the memory for the way back holds.
const BEFORE: u8 = 0xA5;

impl Trial {
    /// Sends an accepted result through the other call, which gives what the case began with.
    pub fn round_trip(
        &mut self,
        call: Call,
        case: &Case,
        answer: &Answer,
    ) -> Result<(), Difference> {
        let input = &case.fabric;
        let (back_call, result_len) = match call {
            Call::Unpack => {
                let Answer {
                    colours, channels, ..
                } = *answer;
                let rows = ROW * (input.bytes.len() / RECORD);
                (Call::Pack { colours, channels }, rows)
            }
            Call::Pack { .. } => (Call::Unpack, file_length(input.bytes.len() / ROW)),
            _ => return Ok(()),
        };
        let result = self.parts[RESULT].bytes()[..result_len].to_vec();
        self.lend(
            FABRIC,
            &Lent {
                bytes: result,
                ..*input
            },
        );
        let memory = vec![BEFORE; input.bytes.len()];
        self.lend(
            RESULT,
            &Lent {
                bytes: memory,
                ..*input
            },
        );
        let back = self.call(back_call)?;
        same("number of the way back", back.number, 0)?;
        if let Call::Pack { colours, channels } = call {
            same("colours and unpack of pack", back.colours, colours)?;
            same("channels and unpack of pack", back.channels, channels)?;
        }
        same_bytes(
            "input and the way back",
            self.parts[RESULT].bytes(),
            &input.bytes,
        )
    }
}

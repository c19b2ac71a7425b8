//! The second program's side of a call.

use reference::{ceiling, check, check_many, pack, reach, run, start, step, unpack};

use crate::answer::Answer;
use crate::case::Call;
use crate::trial::PARTS;

/// Makes the call on copies of the lent memory.
pub fn call(call: Call, parts: &mut [Vec<u8>; PARTS]) -> Answer {
    let [fabric, state, given, result] = parts;
    match call {
        Call::Unpack => {
            let answer = unpack(fabric, result);
            Answer {
                colours: answer.map_or(0, |unpacked| unpacked.colours),
                channels: answer.map_or(0, |unpacked| unpacked.channels),
                ..Answer::of(&answer)
            }
        }
        Call::Pack { colours, channels } => Answer::of(&pack(colours, channels, fabric, result)),
        Call::Start => Answer::of(&start(fabric, state)),
        Call::Step => Answer::of(&step(fabric, state, given, result)),
        Call::Run => Answer::of(&run(fabric, state, given)),
        Call::Check => {
            let answer = check(fabric, given, result);
            Answer {
                constant: answer.unwrap_or(0),
                ..Answer::of(&answer)
            }
        }
        Call::Ceiling { queue, colour } => {
            let answer = ceiling(fabric, given, queue, colour);
            Answer {
                ceiling: answer.unwrap_or(0),
                ..Answer::of(&answer)
            }
        }
        Call::CheckMany => Answer::of(&check_many(fabric, given, result)),
        Call::Reach => Answer::of(&reach(fabric, result)),
    }
}

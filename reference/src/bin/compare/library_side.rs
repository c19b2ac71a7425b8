//! The library's side of a call, over C.

use crate::answer::Answer;
use crate::case::Call;
use crate::lent_memory::LentMemory;
use crate::trial::{FABRIC, PARTS};
use reference::library::{
    fabric_ceiling, fabric_check, fabric_check_many, fabric_pack, fabric_reach, fabric_run,
    fabric_start, fabric_step, fabric_unpack,
};
use reference::library::{
    fabric_ceiling_place, fabric_ceiling_value, fabric_check_constant, fabric_check_many_place,
    fabric_check_place, fabric_pack_place, fabric_reach_place, fabric_run_place,
    fabric_start_place, fabric_step_place, fabric_unpack_channels, fabric_unpack_colours,
    fabric_unpack_place,
};

/// What the sister calls hand back; the number is left at 0.
pub fn sisters(call: Call, parts: &[LentMemory; PARTS]) -> Answer {
    let [(fabric, fabric_len), (state, state_len), (given, given_len), (result, result_len)] =
        parts.each_ref().map(LentMemory::part);
    let mut answer = Answer::default();
    answer.place = unsafe {
        match call {
            Call::Unpack => {
                answer.colours = fabric_unpack_colours(fabric, fabric_len, result, result_len);
                answer.channels = fabric_unpack_channels(fabric, fabric_len, result, result_len);
                fabric_unpack_place(fabric, fabric_len, result, result_len)
            }
            Call::Pack { colours, channels } => {
                fabric_pack_place(colours, channels, fabric, fabric_len, result, result_len)
            }
            Call::Start => fabric_start_place(fabric, fabric_len, state, state_len),
            Call::Step => fabric_step_place(
                fabric, fabric_len, state, state_len, given, given_len, result, result_len,
            ),
            Call::Run => fabric_run_place(fabric, fabric_len, state, state_len, given, given_len),
            Call::Check => {
                answer.constant =
                    fabric_check_constant(fabric, fabric_len, given, given_len, result, result_len);
                fabric_check_place(fabric, fabric_len, given, given_len, result, result_len)
            }
            Call::Ceiling { queue, colour } => {
                answer.ceiling =
                    fabric_ceiling_value(fabric, fabric_len, given, given_len, queue, colour);
                fabric_ceiling_place(fabric, fabric_len, given, given_len, queue, colour)
            }
            Call::CheckMany => {
                fabric_check_many_place(fabric, fabric_len, given, given_len, result, result_len)
            }
            Call::Reach => fabric_reach_place(fabric, fabric_len, result, result_len),
        }
    };
    answer
}

/// Makes the call and gives its number.
pub fn call(call: Call, parts: &mut [LentMemory; PARTS]) -> u32 {
    let [(fabric, fabric_len), (state, state_len), (given, given_len), (result, result_len)] =
        parts.each_mut().map(LentMemory::part_mut);
    unsafe {
        match call {
            Call::Unpack => fabric_unpack(fabric, fabric_len, result, result_len),
            Call::Pack { colours, channels } => {
                fabric_pack(colours, channels, fabric, fabric_len, result, result_len)
            }
            Call::Start => fabric_start(fabric, fabric_len, state, state_len),
            Call::Step => fabric_step(
                fabric, fabric_len, state, state_len, given, given_len, result, result_len,
            ),
            Call::Run => fabric_run(fabric, fabric_len, state, state_len, given, given_len),
            Call::Check => fabric_check(fabric, fabric_len, given, given_len, result, result_len),
            Call::Ceiling { queue, colour } => {
                fabric_ceiling(fabric, fabric_len, given, given_len, queue, colour)
            }
            Call::CheckMany => {
                fabric_check_many(fabric, fabric_len, given, given_len, result, result_len)
            }
            Call::Reach => fabric_reach(fabric, fabric_len, result, result_len),
        }
    }
}

/// The colour sets of the lent fabric, which is an accepted one of so many channels.
pub fn sets(parts: &[LentMemory; PARTS], channels: usize) -> Vec<u8> {
    let (fabric, fabric_len) = parts[FABRIC].part();
    let mut sets = vec![0; channels];
    let number = unsafe { fabric_reach(fabric, fabric_len, sets.as_mut_ptr(), sets.len()) };
    assert_eq!(number, 0, "reach of an accepted fabric");
    sets
}

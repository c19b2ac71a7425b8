//! One case: calls in a row on the same fabric and state, and how their memory lies.

use std::fmt;

use crate::difference::hex;
use crate::lent_memory::Guard;

#[derive(Clone, Copy, PartialEq, Eq, Debug)]
pub enum Call {
    Unpack,
    Pack { colours: u64, channels: u64 },
    Start,
    Step,
    Run,
    Check,
    Ceiling { queue: u64, colour: u64 },
    CheckMany,
    Reach,
}

/// What a part of the memory holds before a call, and where its guard page lies.
#[derive(Clone)]
pub struct Lent {
    pub bytes: Vec<u8>,
    pub guard: Guard,
}

impl Lent {
    pub fn new(bytes: Vec<u8>) -> Lent {
        Lent {
            bytes,
            guard: Guard::BehindOrNull,
        }
    }

    pub fn nothing() -> Lent {
        Lent::new(Vec::new())
    }
}

#[derive(Clone)]
pub struct LentCall {
    pub call: Call,
    /// The choices, the proposal or the blocks.
    pub given: Lent,
    /// The memory for a table, a file, moves, weights, the results of blocks or colour sets.
    pub result: Lent,
    pub expected: Expected,
}

impl LentCall {
    pub fn plain(call: Call, given: &[u8], space: usize, expected: Expected) -> LentCall {
        LentCall {
            call,
            given: Lent::new(given.to_vec()),
            result: Lent::new(vec![0xA5; space]),
            expected,
        }
    }

    pub fn accepted_start() -> LentCall {
        LentCall::plain(Call::Start, &[], 0, Expected::ACCEPTED)
    }
}

/// What the documents themselves say of a call.
#[derive(Clone)]
pub enum Expected {
    Nothing,
    NumberAndPlace(u32, u64),
    /// Accepted, with this result.
    Result(Vec<u8>),
    /// Accepted, with these moves, and byte 0 of each component's state is so after it.
    Step {
        moves: Vec<u8>,
        first_bytes: Vec<u8>,
    },
    /// Accepted, with weights and a constant that the listing program prints so.
    Listing(String),
    /// Accepted, with this ceiling.
    Ceiling(u64),
    /// Accepted, and each block's result reads so.
    Blocks(Vec<String>),
}

impl Expected {
    pub const ACCEPTED: Expected = Expected::NumberAndPlace(0, 0);
}

#[derive(Clone)]
pub struct Case {
    /// A fabric's file, or the table to pack.
    pub fabric: Lent,
    pub state: Lent,
    /// Each call gets fabric and state as the one before left them.
    pub calls: Vec<LentCall>,
    /// Whether what an accepted call gives is tested by other calls of the library: an unpack or a
    /// pack goes through the other call and must come back, each block goes through check.
    pub by_other_calls: bool,
}

impl fmt::Display for Case {
    fn fmt(&self, out: &mut fmt::Formatter) -> fmt::Result {
        writeln!(out, "by other calls: {}", self.by_other_calls)?;
        writeln!(out, "fabric or table {}", self.fabric)?;
        write!(out, "state {}", self.state)?;
        if let [only] = &self.calls[..] {
            return write!(out, "\n{only}");
        }
        write!(out, "\n{} calls", self.calls.len())
    }
}

impl fmt::Display for LentCall {
    fn fmt(&self, out: &mut fmt::Formatter) -> fmt::Result {
        let LentCall {
            call,
            given,
            result,
            ..
        } = self;
        write!(
            out,
            "{call:?}\nchoices, proposal or blocks {given}\nresult's memory {result}"
        )
    }
}

impl fmt::Display for Lent {
    fn fmt(&self, out: &mut fmt::Formatter) -> fmt::Result {
        let Lent { bytes, guard } = self;
        write!(
            out,
            "({guard:?}), {} bytes before: {}",
            bytes.len(),
            hex(bytes)
        )
    }
}

//! Runs a case on both sides and compares all that comes back.

use crate::answer::Answer;
use crate::bad_merges::BadMerges;
use crate::block_counts::BlockCounts;
use crate::case::{Call, Case, Lent};
use crate::counts::Counts;
use crate::difference::{hex, same, same_bytes, Difference};
use crate::followed::Followed;
use crate::left_counts::LeftCounts;
use crate::lent_memory::LentMemory;
use crate::list::List;
use crate::packs::Packs;
use crate::{library_side, second_side};

/// At least as much as any case lends in one piece.
const ROOM: usize = 1 << 21;

/// State not good.
const BAD_STATE: u32 = 22;

/// The parts of lent memory: fabric or table, state, choices, proposal or blocks, and a result's
/// memory.
pub const PARTS: usize = 4;
pub const FABRIC: usize = 0;
pub const STATE: usize = 1;
pub const GIVEN: usize = 2;
pub const RESULT: usize = 3;

pub struct Trial {
    pub parts: [LentMemory; PARTS],
    pub counts: Counts,
    pub packs: Packs,
    pub followed: Followed,
    pub blocks: BlockCounts,
    pub bad_merges: BadMerges,
    pub left: LeftCounts,
}

impl Trial {
    pub fn new() -> Trial {
        Trial {
            parts: std::array::from_fn(|_| LentMemory::new(ROOM)),
            counts: Counts::new(),
            packs: Packs::default(),
            followed: Followed::default(),
            blocks: BlockCounts::default(),
            bad_merges: BadMerges::default(),
            left: LeftCounts::default(),
        }
    }

    /// The number of the case's last call, the same on both sides.
    pub fn run(&mut self, case: &Case) -> Result<u32, Difference> {
        self.lend(FABRIC, &case.fabric);
        self.lend(STATE, &case.state);
        let mut list = List::default();
        let mut last = 0;
        for (place, lent) in case.calls.iter().enumerate() {
            self.lend(GIVEN, &lent.given);
            self.lend(RESULT, &lent.result);
            let state = self.parts[STATE].bytes().to_vec();
            let describe = |difference: Difference| {
                let state = hex(&state);
                difference.during(format!("call {place}, state before: {state}\n{lent}"))
            };
            let answer = self.call(lent.call).map_err(describe)?;
            last = answer.number;
            self.add_left(lent.call, &answer);
            self.as_expected(&lent.expected, &answer)
                .map_err(describe)?;
            if last == 0 {
                self.follow(&mut list, lent.call, &answer);
                self.follow_steps(&mut list, lent.call, &state)
                    .map_err(describe)?;
            }
            if last == BAD_STATE {
                self.add_bad_state(&answer, &state);
            }
            list.after(lent.call, last, self.parts[STATE].bytes())
                .map_err(describe)?;
            if case.by_other_calls && last == 0 {
                self.by_other_calls(lent.call, case, &answer)
                    .map_err(describe)?;
            }
        }
        self.followed.add(&list);
        Ok(last)
    }

    fn by_other_calls(
        &mut self,
        call: Call,
        case: &Case,
        answer: &Answer,
    ) -> Result<(), Difference> {
        match call {
            Call::CheckMany => self.each_alone(),
            _ => self.round_trip(call, case, answer),
        }
    }

    pub fn lend(&mut self, part: usize, lent: &Lent) {
        self.parts[part].lend(&lent.bytes, lent.guard);
    }

    /// Makes a call on both sides, on what is lent, and gives the library's answer.
    pub fn call(&mut self, call: Call) -> Result<Answer, Difference> {
        let before = self.parts.each_ref().map(|part| part.bytes().to_vec());
        let mut after = before.clone();
        let second = second_side::call(call, &mut after);
        self.counts.add(call, second.number);

        let library = library_side::sisters(call, &self.parts);
        library.same_but_number(&second)?;
        self.same_memory("memory after the sister calls", &before)?;
        let number = library_side::call(call, &mut self.parts);
        same("number", number, second.number)?;
        self.same_memory("memory after the call", &after)?;
        let answer = Answer { number, ..library };
        if let Call::Pack { .. } = call {
            let memory = self.parts[RESULT].bytes();
            self.packs
                .add(&answer, &before[FABRIC], &before[RESULT], memory);
        }
        Ok(answer)
    }

    /// The library's answer, without the second program.
    pub fn library_alone(&mut self, call: Call) -> Answer {
        let answer = library_side::sisters(call, &self.parts);
        let number = library_side::call(call, &mut self.parts);
        Answer { number, ..answer }
    }

    /// Whether the lent memory now holds these bytes.
    fn same_memory(&self, what: &'static str, second: &[Vec<u8>; PARTS]) -> Result<(), Difference> {
        let mut pairs = self.parts.iter().zip(second);
        pairs.try_for_each(|(part, second)| same_bytes(what, part.bytes(), second))
    }
}

//! A block, and the result that an accepted call has written for it.

use reference::blocks::read_blocks;
use reference::check::Sum;
use reference::check_many::result_length;
use reference::entries::read_entries;

use crate::trial::{Trial, GIVEN, RESULT};

pub struct JudgedBlock {
    pub terms: Vec<u8>,
    pub result: Vec<u8>,
}

impl JudgedBlock {
    pub fn number(&self) -> i64 {
        self.number_place_constant()[0]
    }

    fn number_place_constant(&self) -> [i64; 3] {
        let mut entries = read_entries(&self.result);
        std::array::from_fn(|_| entries.next().expect("a result has three such entries"))
    }

    /// All 0 if the block is refused.
    pub fn sum(&self) -> Sum {
        Sum {
            weights: read_entries(&self.result).skip(3).collect(),
            constant: self.number_place_constant()[2],
        }
    }

    /// The lines that the listing program would print: of the refusal, if it is refused, and of the
    /// sum in any case.
    pub fn listing(&self) -> String {
        let sum = self.sum().listing();
        match self.number_place_constant() {
            [0, 0, _] => sum,
            [number, place, _] => format!("NO {number} {place}\n{sum}"),
        }
    }
}

impl Trial {
    /// The blocks that the library has just judged.
    pub fn judged_blocks(&self) -> Vec<JudgedBlock> {
        let blocks = read_blocks(self.parts[GIVEN].bytes()).expect("an accepted file of blocks");
        let length = result_length(self.component_count());
        let results = self.parts[RESULT].bytes().chunks_exact(length);
        let judged = blocks.into_iter().zip(results);
        judged
            .map(|(terms, result)| JudgedBlock {
                terms: terms.to_vec(),
                result: result.to_vec(),
            })
            .collect()
    }
}

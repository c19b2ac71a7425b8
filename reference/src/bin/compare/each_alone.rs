//! The results of an accepted file of blocks against the library's own check of each block alone.

use reference::check::weights_length;
use reference::entries::{write_entries, ENTRY};

use crate::case::Call;
use crate::difference::{same_bytes, Difference};
use crate::judged_block::JudgedBlock;
use crate::lent_memory::Guard;
use crate::trial::{Trial, GIVEN, RESULT};

impl Trial {
    pub fn each_alone(&mut self) -> Result<(), Difference> {
        for block in self.judged_blocks() {
            let alone = self.result_alone(&block);
            same_bytes("result and check of the block alone", &block.result, &alone)?;
            self.blocks.compared_with_check += 1;
        }
        Ok(())
    }

    /// A refused check leaves the weights at 0, as they are lent.
    fn result_alone(&mut self, block: &JudgedBlock) -> Vec<u8> {
        let weights = vec![0; weights_length(self.component_count())];
        self.parts[GIVEN].lend(&block.terms, Guard::Behind);
        self.parts[RESULT].lend(&weights, Guard::Behind);
        let answer = self.library_alone(Call::Check);
        let mut result = vec![0; 3 * ENTRY];
        let entries = [
            i64::from(answer.number),
            answer.place as i64,
            answer.constant,
        ];
        write_entries(&mut result, &entries);
        result.extend(self.parts[RESULT].bytes());
        result
    }
}

//! What accepted calls have given, taken up to be followed through the list.

use reference::check::{weights_length, Sum};
use reference::entries::read_entries;
use reference::left::Left;
use reference::packed::read_file;

use crate::answer::Answer;
use crate::case::Call;
use crate::followed_ceilings::FollowedCeiling;
use crate::followed_sums::FollowedSum;
use crate::list::List;
use crate::trial::{Trial, FABRIC, GIVEN, RESULT};

/// Where the header has N.
const COMPONENT_COUNT: usize = 1;

impl Trial {
    /// Takes up what an accepted check, ceiling or check of many has given.
    pub fn follow(&mut self, list: &mut List, call: Call, answer: &Answer) {
        match call {
            Call::Check => {
                let by_sets = self.leaves_outside(self.parts[GIVEN].bytes());
                let sum = FollowedSum::new(self.accepted_sum(answer), by_sets);
                list.sums.push(sum);
            }
            Call::Ceiling { queue, colour } => {
                let (queue, colour) = (queue as usize, colour as usize);
                let fabric = read_file(self.parts[FABRIC].bytes()).expect("an accepted file");
                let capacity = fabric.components[queue].capacity;
                let ceiling = FollowedCeiling::new(queue, colour, answer.ceiling, capacity);
                list.ceilings.push(ceiling);
            }
            Call::CheckMany => {
                let blocks = self.judged_blocks();
                self.blocks.add(&blocks);
                let accepted = blocks.iter().filter(|block| block.number() == 0);
                for block in accepted {
                    let by_sets = self.leaves_outside(&block.terms);
                    let sum = FollowedSum::new(block.sum(), by_sets);
                    list.block_sums.push(sum);
                }
            }
            _ => {}
        }
    }

    /// Whether an accepted proposal leaves flows, all of them outside the colour sets.
    fn leaves_outside(&self, proposal: &[u8]) -> bool {
        let fabric = read_file(self.parts[FABRIC].bytes()).expect("an accepted file");
        Left::of(&fabric, proposal) == Left::Outside
    }

    /// Of the fabric's file, which is an accepted one.
    pub fn component_count(&self) -> usize {
        usize::from(self.parts[FABRIC].bytes()[COMPONENT_COUNT])
    }

    /// The sum whose weights and constant the library has just given.
    pub fn accepted_sum(&self, answer: &Answer) -> Sum {
        let weights = &self.parts[RESULT].bytes()[..weights_length(self.component_count())];
        Sum {
            weights: read_entries(weights).collect(),
            constant: answer.constant,
        }
    }
}

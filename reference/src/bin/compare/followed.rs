//! What was followed through the lists of all cases.

use std::fmt;

use crate::followed_ceilings::CeilingCounts;
use crate::followed_moves::MoveCounts;
use crate::followed_signals::SignalCounts;
use crate::followed_sums::SumCounts;
use crate::list::List;

#[derive(Default)]
pub struct Followed {
    sums: SumCounts,
    block_sums: SumCounts,
    /// Of both, those that leave flows outside the colour sets.
    sums_by_sets: SumCounts,
    ceilings: CeilingCounts,
    below_capacity: CeilingCounts,
    from_call_to_call: SignalCounts,
    inside_runs: SignalCounts,
    moves: MoveCounts,
    moves_inside_runs: MoveCounts,
    /// Lists with steps on a fabric in which some set is not full.
    some_not_full: u64,
}

impl Followed {
    pub fn add(&mut self, list: &List) {
        list.sums.iter().for_each(|sum| self.sums.add(sum));
        let block_sums = list.block_sums.iter();
        block_sums.for_each(|sum| self.block_sums.add(sum));
        let all = list.sums.iter().chain(&list.block_sums);
        let by_sets = all.filter(|sum| sum.by_sets);
        by_sets.for_each(|sum| self.sums_by_sets.add(sum));
        for ceiling in &list.ceilings {
            self.ceilings.add(ceiling);
            if ceiling.below_capacity {
                self.below_capacity.add(ceiling);
            }
        }
        self.from_call_to_call.add(&list.signals.from_call_to_call);
        self.inside_runs.add(&list.signals.inside_runs);
        if let Some(walked) = &list.walked {
            self.moves.add(&walked.moves.first_steps);
            self.moves_inside_runs.add(&walked.moves.inside_runs);
            self.some_not_full += u64::from(walked.moves.some_not_full());
        }
    }

    /// What was followed fewer than `least` times, and how often.
    pub fn too_seldom(&self, least: u64) -> Vec<(&'static str, u64)> {
        let wanted = [
            ("accepted sums", self.sums.sums),
            ("accepted sums of blocks", self.block_sums.sums),
            ("accepted sums by the sets", self.sums_by_sets.sums),
            ("ceilings", self.ceilings.ceilings),
            ("ceilings below the capacity", self.below_capacity.ceilings),
            ("offers not taken", self.from_call_to_call.offers),
            ("takes without an offer", self.from_call_to_call.takes),
            ("held picks", self.from_call_to_call.held_picks),
            ("offers not taken inside runs", self.inside_runs.offers),
            ("takes without an offer inside runs", self.inside_runs.takes),
            ("held picks inside runs", self.inside_runs.held_picks),
            ("moves where a set is not full", self.moves.where_not_full),
            (
                "moves inside runs where a set is not full",
                self.moves_inside_runs.where_not_full,
            ),
            (
                "lists with steps on a fabric in which a set is not full",
                self.some_not_full,
            ),
        ];
        let seldom = wanted.into_iter().filter(|&(_, count)| count < least);
        seldom.collect()
    }
}

impl fmt::Display for Followed {
    fn fmt(&self, out: &mut fmt::Formatter) -> fmt::Result {
        writeln!(out, "accepted sums: {}", self.sums)?;
        writeln!(out, "accepted sums of blocks: {}", self.block_sums)?;
        let by_sets = &self.sums_by_sets;
        writeln!(out, "of both, with flows left outside the sets: {by_sets}")?;
        writeln!(out, "ceilings: {}", self.ceilings)?;
        writeln!(out, "ceilings below the capacity: {}", self.below_capacity)?;
        writeln!(out, "signals from call to call: {}", self.from_call_to_call)?;
        writeln!(out, "signals inside runs: {}", self.inside_runs)?;
        writeln!(
            out,
            "moves of steps and first steps of runs: {}",
            self.moves
        )?;
        writeln!(out, "further moves of runs: {}", self.moves_inside_runs)?;
        write!(
            out,
            "lists with steps on a fabric in which a set is not full: {}",
            self.some_not_full
        )
    }
}

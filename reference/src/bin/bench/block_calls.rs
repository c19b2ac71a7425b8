//! Times check_many, against the second program and against as many checks.

use std::hint::black_box;

use reference::blocks::{write_blocks, MOST_BLOCKS};
use reference::check::{judged, weights_length};
use reference::check_many;
use reference::check_many::result_length;
use reference::left::Left;
use reference::random::Random;
use reference::random_proposal::Equations;
use reference::terms::{write_proposal, Term};
use reference::Fabric;

use crate::sum_calls::library_check;
use crate::timing::{time_alternately, Times};
use reference::library::fabric_check_many;

/// How many terms each block has.
const TERMS: usize = 64;

/// Blocks that leave no flow, and such as leave flows outside the colour sets alone.
pub fn time_all(fabric: &Fabric, mut report: impl FnMut(&str, Times)) {
    let plain = accepted_blocks(fabric, &Equations::everywhere(fabric), Left::Nothing);
    time_blocks(fabric, &plain, "check_many", &mut report);
    let by_sets = accepted_blocks(fabric, &Equations::of(fabric), Left::Outside);
    time_blocks(fabric, &by_sets, "check_many by sets", &mut report);
}

/// Nothing is timed where too few proposals of that length are accepted.
fn time_blocks(
    fabric: &Fabric,
    blocks: &[Vec<Term>],
    row: &str,
    report: &mut impl FnMut(&str, Times),
) {
    if blocks.len() < MOST_BLOCKS {
        return;
    }
    let file = fabric.to_file();
    let components = fabric.components.len();
    let proposals = write_blocks(blocks);
    let mut results = vec![0; MOST_BLOCKS * result_length(components)];
    let mut second_results = results.clone();
    let mut all_at_once = || unsafe {
        let proposals = black_box(&proposals);
        let (results, results_len) = (results.as_mut_ptr(), results.len());
        fabric_check_many(
            file.as_ptr(),
            file.len(),
            proposals.as_ptr(),
            proposals.len(),
            results,
            results_len,
        ) == 0
    };
    let by_second = || check_many(&file, black_box(&proposals), &mut second_results).is_ok();
    let times = time_alternately(&mut all_at_once, by_second);
    report(&format!("{row}, {MOST_BLOCKS}x{TERMS} terms"), times);

    let proposals: Vec<_> = blocks.iter().map(|terms| write_proposal(terms)).collect();
    let mut weights = vec![0; weights_length(components)];
    let one_by_one = || {
        let mut proposals = proposals.iter();
        proposals.all(|proposal| library_check(&file, proposal, &mut weights))
    };
    let times = time_alternately(&mut all_at_once, one_by_one);
    report(&format!("{row} / {MOST_BLOCKS} checks"), times);
}

fn accepted_blocks(fabric: &Fabric, equations: &Equations, left: Left) -> Vec<Vec<Term>> {
    let random = &mut Random::new(1, 0);
    let wanted = |terms: &Vec<Term>| {
        let proposal = write_proposal(terms);
        Left::of(fabric, &proposal) == left && judged(fabric, &proposal).is_ok()
    };
    (0..10 * MOST_BLOCKS)
        .filter_map(|_| equations.just_so_many(random, TERMS))
        .filter(wanted)
        .take(MOST_BLOCKS)
        .collect()
}

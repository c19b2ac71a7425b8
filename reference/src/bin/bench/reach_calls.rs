//! Times reach, against the second program and on a fabric laid backwards, and checks that need it.

use std::hint::black_box;

use reference::check::judged;
use reference::left::Left;
use reference::library::fabric_reach;
use reference::random::Random;
use reference::random_proposal::Equations;
use reference::terms::write_proposal;
use reference::{reach, Fabric};

use crate::sum_calls::time_check;
use crate::timing::{time_alternately, Times};

pub fn time_all(fabric: &Fabric, mut report: impl FnMut(&str, Times)) {
    let file = fabric.to_file();
    let mut sets = vec![0; fabric.channels];
    let mut second_sets = sets.clone();
    let by_library = || library_reach(&file, &mut sets);
    let by_second = || reach(black_box(&file), &mut second_sets).is_ok();
    report("reach", time_alternately(by_library, by_second));
    if let Some((terms, proposal)) = left_outside(fabric) {
        let times = time_check(fabric, &file, &proposal);
        report(&format!("check by sets, {terms} terms"), times);
    }
}

/// The fabric as it is laid, against the last component first.
pub fn time_backwards(fabric: &Fabric) -> Times {
    let (file, backwards) = (fabric.to_file(), fabric.laid_backwards().to_file());
    let mut sets = vec![0; fabric.channels];
    let mut other_sets = sets.clone();
    time_alternately(
        || library_reach(&backwards, &mut sets),
        || library_reach(&file, &mut other_sets),
    )
}

fn library_reach(file: &[u8], sets: &mut [u8]) -> bool {
    let file = black_box(file);
    unsafe { fabric_reach(file.as_ptr(), file.len(), sets.as_mut_ptr(), sets.len()) == 0 }
}

/// The shortest of some proposals that are accepted though flows are left.
fn left_outside(fabric: &Fabric) -> Option<(usize, Vec<u8>)> {
    let random = &mut Random::new(1, 0);
    let equations = Equations::of(fabric);
    let proposals = (0..200).map(|_| equations.cancelling_terms(random));
    let accepted = proposals.filter_map(|terms| {
        let proposal = write_proposal(&terms);
        let outside = Left::of(fabric, &proposal) == Left::Outside;
        (outside && judged(fabric, &proposal).is_ok()).then_some((terms.len(), proposal))
    });
    accepted.min()
}

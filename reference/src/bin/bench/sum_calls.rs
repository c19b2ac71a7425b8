//! Times check and ceiling.

use std::hint::black_box;

use reference::check::{judged, weights_length};
use reference::random::Random;
use reference::random_proposal::Equations;
use reference::terms::write_proposal;
use reference::{ceiling, check, Fabric};

use crate::timing::{time_alternately, Times};
use reference::library::{fabric_ceiling, fabric_check};

pub fn time_all(fabric: &Fabric, mut report: impl FnMut(&str, Times)) {
    let file = fabric.to_file();
    for (size, proposal, place) in proposals(fabric) {
        let row = |call: &str| format!("{call}, {size} terms");
        report(&row("check"), time_check(fabric, &file, &proposal));
        report(&row("ceiling"), time_ceiling(&file, &proposal, place));
    }
}

/// A queue and a colour.
type Place = (u64, u64);

/// The shortest and the longest of some proposals that are accepted and have a weight above 0.
fn proposals(fabric: &Fabric) -> Vec<(usize, Vec<u8>, Place)> {
    let random = &mut Random::new(1, 0);
    let equations = Equations::everywhere(fabric);
    let mut found: Vec<_> = (0..200)
        .map(|_| equations.cancelling_terms(random))
        .filter_map(|terms| {
            let proposal = write_proposal(&terms);
            let place = judged(fabric, &proposal).ok()?.places_above_0().next()?;
            Some((terms.len(), proposal, place))
        })
        .collect();
    found.sort();
    let longest = found.pop();
    found.truncate(1);
    found.into_iter().chain(longest).collect()
}

pub fn time_check(fabric: &Fabric, file: &[u8], proposal: &[u8]) -> Times {
    let mut weights = vec![0; weights_length(fabric.components.len())];
    let mut second_weights = weights.clone();
    time_alternately(
        || library_check(file, proposal, &mut weights),
        || check(file, black_box(proposal), &mut second_weights).is_ok(),
    )
}

/// Whether the library accepts the proposal.
pub fn library_check(file: &[u8], proposal: &[u8], weights: &mut [u8]) -> bool {
    let proposal = black_box(proposal);
    let number = unsafe {
        fabric_check(
            file.as_ptr(),
            file.len(),
            proposal.as_ptr(),
            proposal.len(),
            weights.as_mut_ptr(),
            weights.len(),
        )
    };
    number == 0
}

fn time_ceiling(file: &[u8], proposal: &[u8], (queue, colour): Place) -> Times {
    time_alternately(
        || unsafe {
            let proposal = black_box(proposal);
            fabric_ceiling(
                file.as_ptr(),
                file.len(),
                proposal.as_ptr(),
                proposal.len(),
                queue,
                colour,
            ) == 0
        },
        || ceiling(file, black_box(proposal), queue, colour).is_ok(),
    )
}

//! The panels of the source documents.

use super::packed;
use crate::listing;
use crate::panels::panels;
use crate::sum_basis::sum_basis;
use crate::terms::write_proposal;

#[test]
fn pack_to_the_file_in_the_text() {
    for panel in panels() {
        assert_eq!(packed(&panel.fabric), panel.file, "{}", panel.name);
    }
}

#[test]
fn list_the_sums_in_the_text() {
    for panel in panels() {
        for sum in &panel.sums {
            assert_eq!(write_proposal(&sum.terms), sum.proposal);
            assert_eq!(listing(&panel.file, &sum.proposal), sum.listing);
        }
    }
}

#[test]
fn have_as_many_independent_sums_as_the_text_says() {
    for panel in panels() {
        let found = sum_basis(&panel.fabric);
        assert_eq!(found.sums.len(), panel.sums.len(), "{}", panel.name);
        assert_eq!(found.left_out, 0, "{}", panel.name);
    }
}

/// No panel has more than one, so it is the same up to its sign.
#[test]
fn have_the_sum_in_the_text() {
    for panel in panels() {
        for (found, sum) in sum_basis(&panel.fabric).sums.iter().zip(&panel.sums) {
            let listing = listing(&panel.file, &write_proposal(found));
            assert_eq!(listing, sum.listing, "{}", panel.name);
        }
    }
}

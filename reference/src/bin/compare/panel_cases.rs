//! The panels of the source documents: each is packed, its sums are checked, one by one and
//! together, and it is run.

use reference::check::weights_length;
use reference::panels::{panels, Panel};
use reference::random::Random;
use reference::state::COMPONENT_STATE;

use crate::case::{Call, Case, Expected, Lent, LentCall};
use crate::check_many_cases::{check_many, NO_TERMS};
use crate::random_lists::{list_on, long_run};

/// How many random lists of calls a panel goes through.
const LISTS: usize = 20;

pub fn panel_cases() -> Vec<Case> {
    panels().iter().flat_map(cases_of).collect()
}

fn cases_of(panel: &Panel) -> Vec<Case> {
    let mut cases = vec![packed(panel), checked(panel)];
    let random = &mut Random::new(0, 0);
    cases.push(long_run(random, &panel.fabric));
    cases.extend((0..LISTS).map(|_| list_on(random, &panel.fabric)));
    cases
}

fn packed(panel: &Panel) -> Case {
    let call = Call::Pack {
        colours: panel.fabric.colours as u64,
        channels: panel.fabric.channels as u64,
    };
    let written = Expected::Result(panel.file.clone());
    Case {
        fabric: Lent::new(panel.fabric.to_table()),
        state: Lent::nothing(),
        calls: vec![LentCall::plain(call, &[], panel.file.len(), written)],
        by_other_calls: true,
    }
}

fn checked(panel: &Panel) -> Case {
    let space = weights_length(panel.fabric.components.len());
    let checks = panel.sums.iter().map(|sum| {
        let listing = Expected::Listing(sum.listing.clone());
        LentCall::plain(Call::Check, &sum.proposal, space, listing)
    });
    let mut calls = vec![LentCall::accepted_start()];
    calls.extend(checks);
    calls.push(checked_together(panel));
    Case {
        fabric: Lent::new(panel.file.clone()),
        state: Lent::new(vec![0xA5; COMPONENT_STATE * panel.fabric.components.len()]),
        calls,
        by_other_calls: true,
    }
}

/// Each sum is a block before and one after a block without terms.
fn checked_together(panel: &Panel) -> LentCall {
    let twice = panel.sums.iter().map(|sum| {
        let blocks = [sum.terms.clone(), Vec::new(), sum.terms.clone()];
        let texts = [&sum.listing, NO_TERMS, &sum.listing].map(str::to_string);
        (blocks, texts)
    });
    let (blocks, texts): (Vec<_>, Vec<_>) = twice.unzip();
    let expected = Expected::Blocks(texts.concat());
    check_many(panel.fabric.components.len(), &blocks.concat(), expected)
}

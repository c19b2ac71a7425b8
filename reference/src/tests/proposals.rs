//! How terms add up.

use super::{check_answer, entries, term};
use crate::check;
use crate::component::Component;
use crate::fabric::Fabric;
use crate::samples::{credit_loop, credit_terms, looped_queues, queue};
use crate::terms::{write_proposal, Term};

/// The weights that are not 0, by entry, and the constant.
fn accepted(fabric: &Fabric, terms: &[Term]) -> (Vec<(usize, i64)>, i64) {
    let mut weights = vec![0xA5; 64 * fabric.components.len()];
    let constant = check(&fabric.to_file(), &write_proposal(terms), &mut weights);
    let entries = entries(&weights).into_iter().enumerate();
    let named = entries.filter(|&(_, weight)| weight != 0);
    (named.collect(), constant.expect("an accepted proposal"))
}

#[test]
fn equal_terms_add_and_their_order_is_free() {
    let mut terms = credit_terms();
    terms.reverse();
    terms.extend([term(2, 0, 5), term(2, 0, -5), term(1, 8, 0)]);
    terms[0].multiplier = -7;
    terms.push(term(3, 8, 8));
    assert_eq!(
        accepted(&credit_loop(), &terms),
        (vec![(16, 1), (40, 1)], 2)
    );
}

#[test]
fn multiplier_0_needs_an_equation_and_gives_no_weight() {
    let fabric = credit_loop();
    assert_eq!(check_answer(&fabric, &[term(2, 0, 0)]), (14, 0));
    let terms = [term(2, 0, 0), term(4, 0, 0), term(0, 0, 0)];
    assert_eq!(check_answer(&fabric, &terms), (12, 1));
}

#[test]
fn negative_multipliers() {
    let mut terms = credit_terms();
    terms
        .iter_mut()
        .for_each(|term| term.multiplier = -(1 << 20));
    let weight = -(1 << 20);
    assert_eq!(
        accepted(&credit_loop(), &terms),
        (vec![(16, weight), (40, weight)], 2 * weight)
    );
}

#[test]
fn the_first_term_without_an_equation() {
    let fabric = credit_loop();
    for (component, index) in [
        (0, 0),
        (4, 0),
        (2, 1),
        (2, 8),
        (1, 9),
        (3, 1),
        (6, 0),
        (127, 15),
    ] {
        let terms = [term(2, 0, 1), term(component, index, 1), term(0, 0, 1)];
        assert_eq!(check_answer(&fabric, &terms), (12, 1));
    }
}

#[test]
fn the_lowest_flow_left() {
    let fabric = credit_loop();
    assert_eq!(check_answer(&fabric, &[term(5, 0, 1)]), (13, 8));
    assert_eq!(check_answer(&fabric, &[term(2, 0, 1)]), (13, 16));
    assert_eq!(check_answer(&fabric, &[term(3, 0, -1)]), (13, 24));
}

/// Its factor is 1 - 1, so each multiplier is accepted; weights outgrow 32 bits.
#[test]
fn a_queue_on_itself_has_factor_0() {
    let fabric = Fabric {
        colours: 8,
        channels: 1,
        components: vec![Component {
            fill_colour: 7,
            ..queue(0, 0, 63, 63)
        }],
    };
    assert_eq!(accepted(&fabric, &[term(0, 7, 3)]), (vec![(7, 3)], 189));
    assert_eq!(accepted(&fabric, &[term(0, 6, 3)]), (vec![(6, 3)], 0));
    let heaviest = vec![term(0, 7, -(1 << 20)); 4096];
    let weight = -(1_i64 << 32);
    assert_eq!(
        accepted(&fabric, &heaviest),
        (vec![(7, weight)], 63 * weight)
    );
}

#[test]
fn weights_that_add_up_to_0_are_weights() {
    let terms = [term(0, 0, 1), term(1, 0, -1)];
    let (weights, constant) = accepted(&looped_queues(2), &terms);
    assert_eq!((weights, constant), (vec![(0, 1), (8, -1)], 0));
}

/// The constant comes from the fillings, whatever the capacities are.
#[test]
fn the_constant_comes_from_fillings() {
    let mut fabric = credit_loop();
    fabric.components[5].capacity = 63;
    assert_eq!(accepted(&fabric, &credit_terms()).1, 2);
    fabric.components[2].filling = 1;
    assert_eq!(accepted(&fabric, &credit_terms()).1, 3);
}

//! Blocks for the credit loop with results from the documents, and others at the bounds.

use reference::blocks::{write_blocks, MOST_BLOCKS};
use reference::check_many::result_length;
use reference::samples::{credit_terms, looped_queues};
use reference::terms::{Term, MOST_TERMS, MULTIPLIER_BOUND, TERM};

use crate::case::{Call, Case, Expected, Lent, LentCall};
use crate::credit_loop_cases::{accepted_step, case, LISTING, NO_EQUATION, SOURCE_CHOOSES};

const BAD_BLOCKS: Expected = Expected::NumberAndPlace(33, 0);
const SPACE: Expected = Expected::NumberAndPlace(23, 0);

/// The components of the credit loop.
const SIX: usize = 6;

/// What the result of a block without terms reads.
pub const NO_TERMS: &str = "NO 14 0\nSUM 0\n";

pub fn check_many_cases() -> Vec<Case> {
    vec![
        refused_ones_between(),
        case(counts_of_blocks()),
        case(counts_of_terms()),
        case(lengths()),
        heaviest(),
    ]
}

/// The sum of the credit loop before and after blocks that are refused, followed through steps.
fn refused_ones_between() -> Case {
    let sum = credit_terms();
    let blocks = [
        (sum.clone(), LISTING),
        (sum[..4].to_vec(), "NO 13 24\nSUM 0\n"),
        (sum.clone(), LISTING),
        (Vec::new(), NO_TERMS),
        (vec![NO_EQUATION], "NO 12 0\nSUM 0\n"),
        (vec![sum[0], sum[1], NO_EQUATION], "NO 12 2\nSUM 0\n"),
        (sum, LISTING),
    ];
    let (blocks, texts): (Vec<_>, Vec<_>) = blocks.into_iter().unzip();
    let texts = texts.into_iter().map(str::to_string).collect();
    Case {
        by_other_calls: true,
        ..case(vec![
            LentCall::accepted_start(),
            check_many(SIX, &blocks, Expected::Blocks(texts)),
            accepted_step(SOURCE_CHOOSES, [1, 1, 1, 0, 0, 0], [0, 0, 1, 0, 0, 1]),
            accepted_step(SOURCE_CHOOSES, [1, 1, 1, 0, 0, 0], [0, 0, 2, 0, 0, 0]),
        ])
    }
}

fn counts_of_blocks() -> Vec<LentCall> {
    let without_terms = |count, expected| check_many(SIX, &vec![Vec::new(); count], expected);
    let all_refused = Expected::Blocks(vec![NO_TERMS.to_string(); MOST_BLOCKS]);
    vec![
        without_terms(0, Expected::Blocks(Vec::new())),
        LentCall::plain(Call::CheckMany, &[], 9, Expected::Result(vec![0xA5; 9])),
        without_terms(MOST_BLOCKS, all_refused),
        without_terms(MOST_BLOCKS + 1, BAD_BLOCKS),
    ]
}

fn counts_of_terms() -> Vec<LentCall> {
    let idle = Term {
        multiplier: 0,
        ..credit_terms()[0]
    };
    let with_sum = |count, expected| {
        let mut terms = credit_terms();
        terms.resize(count, idle);
        check_many(SIX, &[terms], expected)
    };
    let accepted = || Expected::Blocks(vec![LISTING.to_string()]);
    vec![
        with_sum(256, accepted()),
        with_sum(MOST_TERMS, accepted()),
        with_sum(MOST_TERMS + 1, BAD_BLOCKS),
        with_sum(0xFFFF, BAD_BLOCKS),
    ]
}

/// Blocks and results, each a byte short or long, and blocks a term short.
fn lengths() -> Vec<LentCall> {
    let file = write_blocks(&[credit_terms(), credit_terms()]);
    let one_short = &file[..file.len() - 1];
    let term_short = &file[..file.len() - TERM];
    let one_long = [&file[..], &[0]].concat();
    let space = 2 * result_length(SIX);
    let call =
        |file: &[u8], space, expected| LentCall::plain(Call::CheckMany, file, space, expected);
    vec![
        call(&file, space, Expected::ACCEPTED),
        call(&file, space + 1, Expected::ACCEPTED),
        call(&file, space - 1, SPACE),
        call(one_short, space, BAD_BLOCKS),
        call(term_short, space, BAD_BLOCKS),
        call(&one_long, space, BAD_BLOCKS),
        call(&one_long, 0, BAD_BLOCKS),
    ]
}

/// As many blocks, terms, components and as much weight as there can be; queues on themselves,
/// whose flows cancel in every term.
fn heaviest() -> Case {
    let fabric = looped_queues(128);
    let heavy = |component| Term {
        component,
        index: 0,
        multiplier: -MULTIPLIER_BOUND,
    };
    let queues = 128 - MOST_BLOCKS..128;
    let texts = queues
        .clone()
        .map(|q| format!("Q {q} 0 -4294967296\nSUM 0\n"));
    let texts = Expected::Blocks(texts.collect());
    let blocks: Vec<_> = queues.map(|q| vec![heavy(q); MOST_TERMS]).collect();
    Case {
        fabric: Lent::new(fabric.to_file()),
        ..case(vec![check_many(128, &blocks, texts)])
    }
}

/// Good blocks and just as much memory as their results take.
pub fn check_many(components: usize, blocks: &[Vec<Term>], expected: Expected) -> LentCall {
    let space = blocks.len() * result_length(components);
    LentCall::plain(Call::CheckMany, &write_blocks(blocks), space, expected)
}

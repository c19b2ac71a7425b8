//! Colour sets worked out by hand, and proposals that leave flows inside and outside of them.

use reference::blocks::write_blocks;
use reference::check::weights_length;
use reference::check_many::result_length;
use reference::component::{Component, Kind};
use reference::samples::{
    self, credit_loop, emits, fork_into_join, queue, queue_row, sink, source, switch_row,
};
use reference::terms::{write_proposal, Term};
use reference::Fabric;

use crate::case::{Call, Case, Expected, Lent, LentCall};

const SPACE: Expected = Expected::NumberAndPlace(23, 0);

pub fn reach_cases() -> Vec<Case> {
    let mut cases = vec![
        lengths(),
        refused_first(),
        colour_0_alone(),
        colour_1_alone(),
        no_run_ever_moves_it(),
        join_that_waits(),
    ];
    cases.extend(sets_by_hand().into_iter().map(listed));
    cases
}

fn case(fabric: &Fabric, calls: Vec<LentCall>) -> Case {
    Case {
        fabric: Lent::new(fabric.to_file()),
        state: Lent::nothing(),
        calls,
        by_other_calls: true,
    }
}

fn reach(space: usize, expected: Expected) -> LentCall {
    LentCall::plain(Call::Reach, &[], space, expected)
}

fn listed((fabric, sets): (Fabric, Vec<u8>)) -> Case {
    let space = sets.len();
    case(&fabric, vec![reach(space, Expected::Result(sets))])
}

/// Just as much memory as there are channels, less, and more, of which the rest stays.
fn lengths() -> Case {
    let sets = [0x80; 6];
    let longer = |more| Expected::Result([&sets[..], &vec![0xA5; more]].concat());
    let calls = vec![
        reach(6, longer(0)),
        reach(7, longer(1)),
        reach(300, longer(294)),
        reach(5, SPACE),
        reach(0, SPACE),
    ];
    case(&credit_loop(), calls)
}

/// A refused file is refused before the space is looked at.
fn refused_first() -> Case {
    let circle = Expected::NumberAndPlace(8, 0);
    let calls = vec![reach(0, circle.clone()), reach(4, circle)];
    case(&fork_into_join(), calls)
}

fn fabric(colours: usize, channels: usize, components: Vec<Component>) -> Fabric {
    Fabric {
        colours,
        channels,
        components,
    }
}

/// Each with its sets.
fn sets_by_hand() -> Vec<(Fabric, Vec<u8>)> {
    let mut no_credits = credit_loop();
    no_credits.components[5].filling = 0;
    let switches: Vec<u8> = [0x80, 0x40, 0xC0].repeat(63);
    vec![
        (no_credits, vec![0x80, 0, 0, 0, 0, 0]),
        (queue_row(128), vec![0x80; 127]),
        (queue_row(128).laid_backwards(), vec![0x80; 127]),
        (switch_row(63), [&[0xC0], &switches[..]].concat()),
        (
            switch_row(63).laid_backwards(),
            [&[0xC0], &switches[..]].concat(),
        ),
        (filled(0, 0), vec![0x40, 0x40]),
        (filled(1, 0), vec![0x40, 0xC0]),
        (filled(1, 7), vec![0x40, 0x41]),
        (mapped(), vec![0xC0, 0x20, 0x20, 0x80, 0x90]),
        (ring(), vec![0x80, 0x7F, 0xFF, 0xFF]),
        (joined(0), vec![0x80, 0, 0, 0, 0]),
        (joined(1), vec![0x80, 0x10, 0x10, 0x40, 0x10]),
    ]
}

/// A source of colour 1, a queue with so many of a colour, and a sink.
fn filled(filling: u8, fill_colour: u8) -> Fabric {
    let queue = Component {
        fill_colour,
        ..queue(0, 1, 1, filling)
    };
    fabric(8, 2, vec![emits(0x40, 0), queue, sink(1)])
}

/// Colours 0 and 1 are 2 behind the function; the fork keeps it for B and makes it 0 for C, where a
/// queue has colour 3.
fn mapped() -> Fabric {
    let first = Component {
        first_map: [2, 2, 0, 3, 0, 0, 0, 0],
        ..Component::new(Kind::Function, [0, 1, 0])
    };
    let fork = Component {
        first_map: [0, 1, 2, 3, 0, 0, 0, 0],
        second_map: [1, 1, 0, 0, 0, 0, 0, 0],
        ..Component::new(Kind::Fork, [1, 2, 3])
    };
    let filled = Component {
        fill_colour: 3,
        ..queue(3, 4, 1, 1)
    };
    let components = vec![sink(4), filled, sink(2), fork, first, emits(0xC0, 0)];
    fabric(4, 5, components)
}

/// A join of data of colour 0, which its map makes 1, with tokens from a queue of so many of colour 3,
/// which a fork sends back and on.
fn joined(filling: u8) -> Fabric {
    let keeps_colour_3 = [0, 0, 0, 3, 0, 0, 0, 0];
    let join = Component {
        first_map: [1, 0, 0, 0, 0, 0, 0, 0],
        ..Component::new(Kind::Join, [0, 2, 3])
    };
    let fork = Component {
        first_map: keeps_colour_3,
        second_map: keeps_colour_3,
        ..Component::new(Kind::Fork, [4, 1, 2])
    };
    let tokens = Component {
        fill_colour: 3 * filling,
        ..queue(1, 4, 1, filling)
    };
    fabric(4, 5, vec![sink(3), join, fork, tokens, source(0)])
}

/// Each time round a colour is the next one, and colour 7 stays.
fn ring() -> Fabric {
    let next = Component {
        first_map: [1, 2, 3, 4, 5, 6, 7, 7],
        ..Component::new(Kind::Function, [3, 1, 0])
    };
    let merge = Component::new(Kind::Merge, [0, 1, 2]);
    fabric(8, 4, vec![next, queue(2, 3, 1, 0), merge, emits(0x80, 0)])
}

fn term(component: usize, index: usize, multiplier: i64) -> Term {
    Term {
        component,
        index,
        multiplier,
    }
}

fn check(components: usize, terms: &[Term], expected: Expected) -> LentCall {
    let space = weights_length(components);
    LentCall::plain(Call::Check, &write_proposal(terms), space, expected)
}

fn listing(text: &str) -> Expected {
    Expected::Listing(text.to_string())
}

/// A source of colour 0, a queue and a sink: colour 1 never comes.
fn colour_0_alone() -> Case {
    let outside = [term(1, 1, 7)];
    let inside = [term(1, 0, 7)];
    let both = [term(1, 1, 7), term(1, 0, 1)];
    let blocks = [&outside[..], &inside, &both, &outside].map(<[Term]>::to_vec);
    let texts = [
        "Q 1 1 7\nSUM 0\n",
        "NO 13 0\nSUM 0\n",
        "NO 13 0\nSUM 0\n",
        "Q 1 1 7\nSUM 0\n",
    ];
    let texts = Expected::Blocks(texts.map(str::to_string).to_vec());
    let space = blocks.len() * result_length(3);
    let ceiling = Call::Ceiling {
        queue: 1,
        colour: 1,
    };
    let calls = vec![
        check(3, &outside, listing("Q 1 1 7\nSUM 0\n")),
        check(3, &inside, Expected::NumberAndPlace(13, 0)),
        check(3, &both, Expected::NumberAndPlace(13, 0)),
        check(3, &[term(0, 1, 5)], Expected::NumberAndPlace(14, 0)),
        LentCall::plain(ceiling, &write_proposal(&outside), 0, Expected::Ceiling(0)),
        LentCall::plain(Call::CheckMany, &write_blocks(&blocks), space, texts),
    ];
    case(&samples::colour_0_alone(), calls)
}

/// The same with a source of colour 1: the lowest flow that is left is outside the sets, the next one
/// is not.
fn colour_1_alone() -> Case {
    let mut fabric = samples::colour_0_alone();
    fabric.components[0] = emits(0x40, 0);
    let calls = vec![
        check(3, &[term(1, 0, 7)], listing("Q 1 0 7\nSUM 0\n")),
        check(
            3,
            &[term(1, 0, 7), term(1, 1, 1)],
            Expected::NumberAndPlace(13, 1),
        ),
    ];
    case(&fabric, calls)
}

/// The queue stands behind the merge that it leads back to. Nothing ever moves on channel 1: the merge
/// would have to take it into a queue that has no room for it.
fn no_run_ever_moves_it() -> Case {
    let merge = Component::new(Kind::Merge, [0, 1, 2]);
    let looped = fabric(1, 3, vec![source(0), merge, queue(2, 1, 1, 0)]);
    let calls = vec![
        reach(3, Expected::Result(vec![0x80; 3])),
        check(3, &[term(2, 0, 1)], Expected::NumberAndPlace(13, 8)),
    ];
    case(&looped, calls)
}

/// The credit loop without credits: nothing comes behind the join.
fn join_that_waits() -> Case {
    let mut no_credits = credit_loop();
    no_credits.components[5].filling = 0;
    let calls = vec![
        check(6, &[term(2, 0, 3)], listing("Q 2 0 3\nSUM 0\n")),
        check(6, &[term(5, 0, -1)], listing("Q 5 0 -1\nSUM 0\n")),
        check(
            6,
            &[term(2, 0, 3), term(1, 8, 1)],
            Expected::NumberAndPlace(13, 0),
        ),
    ];
    case(&no_credits, calls)
}

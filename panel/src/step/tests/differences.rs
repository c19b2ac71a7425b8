use reference::netlist::{Names, Netlist};
use reference::samples::credit_loop;
use reference::signals::Channel;

use crate::failure::Failure;
use crate::opened::Opened;
use crate::step::one_step::{compare, OneStep};

fn netlist() -> Netlist {
    let fabric = credit_loop();
    let names = Names::numbered(&fabric);
    Netlist { fabric, names }
}

/// The signals of the credit loop's first step, from docs/FORMAT.md.
fn signals() -> Vec<Channel> {
    let moved = Channel {
        offer: Some(0),
        take: true,
    };
    let nothing = Channel::default();
    vec![moved, moved, moved, nothing, nothing, nothing]
}

#[test]
fn the_same_moves() {
    assert!(compare(&netlist(), &signals(), &[1, 1, 1, 0, 0, 0]).is_ok());
}

#[test]
fn other_moves_are_said() {
    let cases = [
        (
            [1, 1, 0, 0, 0, 0],
            "'c2': the library's move is 0, by offer and take it is 1",
        ),
        (
            [1, 1, 1, 0, 1, 0],
            "'c4': the library's move is 1, by offer and take it is 0",
        ),
        (
            [1, 2, 1, 0, 0, 0],
            "'c1': the library's move is 2, by offer and take it is 1",
        ),
    ];
    for (moves, words) in cases {
        let Err(failure @ Failure::Differ(_)) = compare(&netlist(), &signals(), &moves) else {
            panic!("{moves:?} are taken for the same");
        };
        let begin = "the library and the second program differ on channel ";
        assert_eq!(failure.message(), begin.to_string() + words);
    }
}

/// Offered and not taken, or taken and not offered, is no move.
#[test]
fn a_signal_alone_moves_nothing() {
    let offered = Channel {
        offer: Some(0),
        take: false,
    };
    let taken = Channel {
        offer: None,
        take: true,
    };
    let signals = [offered, taken, offered, taken, offered, taken];
    assert!(compare(&netlist(), &signals, &[0; 6]).is_ok());
    assert!(compare(&netlist(), &signals, &[1, 0, 0, 0, 0, 0]).is_err());
}

/// The rules are given a queue that is always full, the library the one of the file.
#[test]
fn every_step_is_compared() {
    let mut opened = Opened {
        file: credit_loop().to_file(),
        netlist: netlist(),
    };
    let state = crate::calls::start(&opened.file).expect("accepted");
    let choices = vec![1, 0, 0, 0, 0, 0];
    assert!(OneStep::of(&opened, &state, choices.clone()).is_ok());
    opened.netlist.fabric.components[2].capacity = 0;
    let Err(failure @ Failure::Differ(_)) = OneStep::of(&opened, &state, choices) else {
        panic!("the difference is not seen");
    };
    assert_eq!(
        failure.message(),
        "the library and the second program differ on channel 'c0': the library's move is 1, by \
         offer and take it is 0"
    );
}

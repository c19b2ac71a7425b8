//! Proposals as text, both ways.

use super::term;
use crate::proposal_text::{read, write};
use crate::random::Random;
use crate::terms::{Term, MOST_TERMS};

fn components() -> Vec<String> {
    ["alarms", "gate", "messages", "a-b", "a", "b"]
        .map(String::from)
        .to_vec()
}

fn terms_in(text: &str) -> Vec<Term> {
    read(text, &components()).unwrap_or_else(|error| panic!("{text}: {error:?}"))
}

#[test]
fn each_way_to_say_a_term() {
    let cases = [
        ("", vec![]),
        ("  # nothing\n\n", vec![]),
        ("1 * gate.0", vec![term(1, 0, 1)]),
        ("gate.8", vec![term(1, 8, 1)]),
        ("-gate.8", vec![term(1, 8, -1)]),
        ("- 3*gate.15 # as often", vec![term(1, 15, -3)]),
        ("+ messages.0", vec![term(2, 0, 1)]),
        ("0 * messages.00", vec![term(2, 0, 0)]),
        ("1048575 * gate.0", vec![term(1, 0, 1_048_575)]),
        ("-1048576 * gate.0", vec![term(1, 0, -1_048_576)]),
        ("-0001048576 * gate.0", vec![term(1, 0, -1_048_576)]),
    ];
    for (text, expected) in cases {
        assert_eq!(terms_in(text), expected, "{text}");
    }
}

#[test]
fn terms_in_a_line_and_in_lines_stand_in_their_order() {
    let expected = [term(2, 0, 1), term(1, 0, -2), term(1, 8, 1), term(1, 0, -2)];
    for text in [
        "messages.0 - 2 * gate.0 + gate.8 - 2 * gate.0",
        "messages.0-2*gate.0+gate.8-2*gate.0",
        "messages.0\n-2 * gate.0 + gate.8\n- 2 * gate.0",
        "1 * messages.0 + -2 * gate.0 - -1 * gate.8 + -2 * gate.0",
        "\tmessages.0\r\n-2 * gate.0 # - gate.1\r\n\r\n+ gate.8 - 2 * gate.0\r\n",
    ] {
        assert_eq!(terms_in(text), expected, "{text}");
    }
}

#[test]
fn a_minus_in_a_name_is_a_part_of_it() {
    assert_eq!(terms_in("a-b.0"), [term(3, 0, 1)]);
    assert_eq!(terms_in("a.1-b.0"), [term(4, 1, 1), term(5, 0, -1)]);
    assert_eq!(terms_in("a.1-a-b.0"), [term(4, 1, 1), term(3, 0, -1)]);
}

#[test]
fn what_is_wrong_is_said_with_its_line() {
    let cases = [
        ("gait.0", 1, "'gait' is no component"),
        ("gait", 1, "'gait' is no component"),
        ("gate.0\n\n2 * Gate.0", 3, "'Gate' is no component"),
        ("gate", 1, "'gate' has no index, as gate.0 has"),
        ("gate.", 1, "'gate.' has no index, as gate.0 has"),
        ("gate.16", 1, "'gate.16': an index is 0 to 15"),
        ("gate.x", 1, "'gate.x': an index is 0 to 15"),
        (
            "gate.0 messages.0",
            1,
            "'+' or '-' is missing before 'messages.0'",
        ),
        (
            "gate.0 2 * messages.0",
            1,
            "'+' or '-' is missing before '2'",
        ),
        ("gate.0.1", 1, "'+' or '-' is missing before '.'"),
        ("2 gate.0", 1, "'*' is missing after '2'"),
        ("# first\ngate.0 +", 2, "the line ends before its last term"),
        ("gate.0 - 3 *", 1, "the line ends before its last term"),
        ("-", 1, "the line ends before its last term"),
        ("* gate.0", 1, "'*' stands where a component should"),
        ("gate.0 + 2 * 3", 1, "'3' stands where a component should"),
        ("(gate.0)", 1, "'(' stands where a component should"),
        (
            "\u{e9}tage.0",
            1,
            "'\u{e9}' stands where a component should",
        ),
        (
            "1048576 * gate.0",
            1,
            "'1048576' is no multiplier from -1048576 to 1048575",
        ),
        (
            "gate.0\n- 1048577 * gate.0",
            2,
            "'-1048577' is no multiplier from -1048576 to 1048575",
        ),
        (
            "- -1048576 * gate.0",
            1,
            "'1048576' is no multiplier from -1048576 to 1048575",
        ),
        (
            "99999999999999999999 * gate.0",
            1,
            "'99999999999999999999' is no multiplier from -1048576 to 1048575",
        ),
        (
            "2x * gate.0",
            1,
            "'2x' is no multiplier from -1048576 to 1048575",
        ),
    ];
    for (text, line, message) in cases {
        let error = read(text, &components()).expect_err(text);
        assert_eq!((error.line, error.message.as_str()), (line, message));
    }
}

#[test]
fn there_are_at_most_4096_terms() {
    let most = "gate.0\n".repeat(MOST_TERMS);
    assert_eq!(terms_in(&most), vec![term(1, 0, 1); 4096]);
    let error = read(&(most + "# more\n- gate.0"), &components()).expect_err("one more");
    assert_eq!(
        (error.line, error.message.as_str()),
        (4098, "there are more than 4096 terms")
    );
}

#[test]
fn a_term_is_written_with_its_multiplier() {
    let terms = [term(1, 0, 1), term(3, 8, -1), term(2, 15, 0)];
    assert_eq!(
        write(&terms, &components()),
        "1 * gate.0\n-1 * a-b.8\n0 * messages.15\n"
    );
}

#[test]
fn what_is_written_reads_back() {
    for number in 0..50 {
        let random = &mut Random::new(12, number);
        let count = random.pick(&[0, 1, 7, 300, MOST_TERMS]);
        let terms: Vec<Term> = (0..count).map(|_| any_term(random)).collect();
        assert_eq!(terms_in(&write(&terms, &components())), terms);
    }
}

fn any_term(random: &mut Random) -> Term {
    let multiplier = match random.below(4) {
        0 => random.pick(&[0, 1, -1, 1_048_575, -1_048_576]),
        _ => random.below(1 << 21) as i64 - (1 << 20),
    };
    term(random.below(6), random.below(16), multiplier)
}

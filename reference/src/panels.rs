//! The panels of the source documents: netlists, and what is expected of each.

use crate::fabric::Fabric;
use crate::netlist;
use crate::terms::Term;

/// The name of a panel, its netlist and what is expected.
macro_rules! texts {
    ($($name:literal),*) => {
        [$((
            $name,
            include_str!(concat!("../../panels/", $name, ".txt")),
            include_str!(concat!("../../panels/expected/", $name, ".txt")),
        )),*]
    };
}

const TEXTS: [(&str, &str, &str); 6] = texts!(
    "credit-loop",
    "credits",
    "distributor",
    "fork-join",
    "two-stages",
    "uneven"
);

pub struct Panel {
    pub name: &'static str,
    pub fabric: Fabric,
    /// The packed file as expected.
    pub file: Vec<u8>,
    /// One of each sum that does not follow from the others.
    pub sums: Vec<PanelSum>,
}

pub struct PanelSum {
    pub terms: Vec<Term>,
    pub proposal: Vec<u8>,
    pub listing: String,
}

pub fn panels() -> Vec<Panel> {
    TEXTS.iter().map(panel).collect()
}

fn panel((name, netlist, expected): &(&'static str, &str, &str)) -> Panel {
    let with = |start: &'static str| {
        expected
            .lines()
            .filter_map(move |line| line.strip_prefix(start))
    };
    let one = |start| with(start).next().expect("a panel has such a line");
    let sums: Vec<PanelSum> = with(" terms ")
        .zip(with("  hex "))
        .zip(with("  listing: "))
        .map(|((terms, hex), listing)| PanelSum {
            terms: terms.split(' ').map(term).collect(),
            proposal: bytes(hex),
            listing: listing.split("; ").flat_map(|line| [line, "\n"]).collect(),
        })
        .collect();
    assert_eq!(number(one("independent sums: ")), sums.len());
    Panel {
        name,
        fabric: netlist::read(netlist).expect("a netlist").fabric,
        file: bytes(one("hex ")),
        sums,
    }
}

/// From `(component,index,multiplier)`.
fn term(text: &str) -> Term {
    let mut parts = text.trim_matches(['(', ')']).split(',');
    let mut next = || parts.next().expect("a term has three parts");
    Term {
        component: number(next()),
        index: number(next()),
        multiplier: next().parse().expect("a multiplier"),
    }
}

/// Of hex digits, with spaces between them or not.
pub fn bytes(hex: &str) -> Vec<u8> {
    let digits: Vec<u8> = hex.bytes().filter(|digit| *digit != b' ').collect();
    let value = |digit: u8| (digit as char).to_digit(16).expect("a hex digit") as u8;
    let pairs = digits.as_chunks::<2>().0.iter();
    pairs
        .map(|[high, low]| value(*high) << 4 | value(*low))
        .collect()
}

fn number(text: &str) -> usize {
    text.parse().expect("a number")
}

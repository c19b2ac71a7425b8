//! Files whose text is known: the document's case, the panels' sums, and others at the bounds.

use reference::panels::panels;
use reference::samples::{colour_0_alone, credit_loop, credit_terms, looped_queues};
use reference::terms::{write_proposal, Term, MOST_TERMS, MULTIPLIER_BOUND};
use reference::Fabric;

use crate::files::{Content, Files};

/// A name, the files, and their text.
type Case = (String, Files, String);

const LOOP_TEXT: &str = "Q 2 0 1\nQ 5 0 1\nSUM 2\n";

pub fn fixed_files() -> Vec<Case> {
    let mut cases = credit_loop_files();
    cases.extend(left_files());
    cases.extend(panel_files());
    cases.extend(long_files());
    cases.push(longest_text());
    cases
}

fn case(name: &str, files: Files, text: &str) -> Case {
    (name.to_string(), files, text.to_string())
}

fn credit_loop_files() -> Vec<Case> {
    let fabric = Content::Bytes(credit_loop().to_file());
    let terms = credit_terms();
    let proof = Content::Bytes(write_proposal(&terms));
    let opposite = terms.iter().map(|term| Term {
        multiplier: -12,
        ..*term
    });
    let opposite = Content::Bytes(write_proposal(&opposite.collect::<Vec<Term>>()));
    let with = |fabric: &Content, proof: &Content| Files {
        fabric: fabric.clone(),
        proof: proof.clone(),
    };
    let (missing, folder) = (Content::Missing, Content::Folder);
    vec![
        case("credit loop", with(&fabric, &proof), LOOP_TEXT),
        case(
            "negative weights",
            with(&fabric, &opposite),
            "Q 2 0 -12\nQ 5 0 -12\nSUM -24\n",
        ),
        case("empty folder", with(&missing, &missing), "NO 1 0\n"),
        case("no fabric", with(&missing, &proof), "NO 1 0\n"),
        case("no proof", with(&fabric, &missing), "NO 14 0\n"),
        case("fabric unreadable", with(&folder, &proof), "NO 1 0\n"),
        case("proof unreadable", with(&fabric, &folder), "NO 14 0\n"),
    ]
}

/// A source of colour 0, a queue and a sink: colour 1 never comes, and its flows are outside the sets.
fn left_files() -> Vec<Case> {
    let fabric = colour_0_alone();
    let of_queue = |index, multiplier| Term {
        component: 1,
        index,
        multiplier,
    };
    let (outside, inside) = (of_queue(1, 7), of_queue(0, 7));
    let with = |terms: &[Term]| Files::of(fabric.to_file(), write_proposal(terms));
    vec![
        case("outside the sets", with(&[outside]), "Q 1 1 7\nSUM 0\n"),
        case("inside the sets", with(&[inside]), "NO 13 0\n"),
        case("both", with(&[outside, inside]), "NO 13 0\n"),
    ]
}

fn panel_files() -> Vec<Case> {
    let mut cases = Vec::new();
    for panel in panels() {
        for sum in panel.sums {
            let files = Files::of(panel.file.clone(), sum.proposal);
            cases.push(case(panel.name, files, &sum.listing));
        }
    }
    cases
}

/// The longest files that can be accepted, and longer ones.
fn long_files() -> Vec<Case> {
    let fabric = looped_queues(128).to_file();
    let proof = [0, 0x1F, 0xFF, 0xFF].repeat(MOST_TERMS);
    let longer = |bytes: &[u8], more: usize| [bytes, &vec![0; more]].concat();
    let mut cases = vec![case(
        "longest files",
        Files::of(fabric.clone(), proof.clone()),
        "Q 0 0 -4096\nSUM 0\n",
    )];
    for more in [1, 2, 4, 13, 100_000] {
        let long_proof = Files::of(fabric.clone(), longer(&proof, more));
        let long_fabric = Files::of(longer(&fabric, more), proof.clone());
        cases.push(case("longer proof", long_proof, "NO 11 0\n"));
        cases.push(case("longer fabric", long_fabric, "NO 4 0\n"));
    }
    cases
}

/// A weight for each colour of each of 128 queues, as long as it can be made for all of them.
fn longest_text() -> Case {
    let fabric = Fabric {
        colours: 8,
        ..looped_queues(128)
    };
    let one_each = (0..1024).map(|entry| Term {
        component: entry / 8,
        index: entry % 8,
        multiplier: -MULTIPLIER_BOUND,
    });
    let terms: Vec<Term> = one_each.collect::<Vec<Term>>().repeat(MOST_TERMS / 1024);
    let weight = -MULTIPLIER_BOUND * (MOST_TERMS / 1024) as i64;
    let lines = (0..1024).map(|entry| format!("Q {} {} {weight}\n", entry / 8, entry % 8));
    let text = lines.collect::<String>() + "SUM 0\n";
    let files = Files::of(fabric.to_file(), write_proposal(&terms));
    case("longest text", files, &text)
}

//! Compares what the listing program prints with the second program's text.

#[path = "../shared/damaged_fabric.rs"]
mod damaged_fabric;
#[path = "../shared/damaged_file.rs"]
mod damaged_file;
#[path = "../shared/damaged_proposal.rs"]
mod damaged_proposal;
mod files;
mod fixed_files;
mod program;
#[path = "../shared/random_fabrics.rs"]
mod random_fabrics;
mod random_files;

use std::path::Path;
use std::process::ExitCode;

use reference::left::Left;
use reference::random::Random;

use files::Files;
use fixed_files::fixed_files;
use program::Program;
use random_files::random_files;

const USAGE: &str = "usage: compare_listing PROGRAM FOLDER [CASES [SEED]]
PROGRAM is run in FOLDER, whose fabric.bin and proof.bin are written anew for each case";

fn main() -> ExitCode {
    let words: Vec<String> = std::env::args().skip(1).collect();
    let number = |place: usize, default: u64| {
        let word = words.get(place);
        word.map_or(Some(default), |word| word.parse().ok())
    };
    let ([program, folder, ..], Some(cases), Some(seed)) =
        (&words[..], number(2, 3000), number(3, 1))
    else {
        eprintln!("{USAGE}");
        return ExitCode::FAILURE;
    };
    let program = Program::new(Path::new(program), Path::new(folder));
    match compare(&program, cases, seed) {
        Ok(report) => {
            println!("{report}");
            ExitCode::SUCCESS
        }
        Err(difference) => {
            println!("{difference}");
            ExitCode::FAILURE
        }
    }
}

/// Each of these must occur in the text of some random case: an accepted sum, a negative number,
/// and each number that a listing is refused with.
const KINDS: [&str; 14] = [
    "SUM ", "-", "NO 1 ", "NO 2 ", "NO 3 ", "NO 4 ", "NO 5 ", "NO 6 ", "NO 7 ", "NO 8 ", "NO 11 ",
    "NO 12 ", "NO 13 ", "NO 14 ",
];

/// Each of these must occur too: where the flows lie that a proposal leaves.
const PLACES: [(Left, &str); 4] = [
    (Left::Outside, "flows left outside the colour sets alone"),
    (Left::Inside, "flows left inside alone"),
    (Left::LowestOutside, "the lowest of both outside"),
    (Left::LowestInside, "the lowest of both inside"),
];

fn compare(program: &Program, cases: u64, seed: u64) -> Result<String, String> {
    let fixed = fixed_files();
    for (name, files, text) in &fixed {
        for text in [text, &files.text()] {
            agree(program, files, text).map_err(|found| format!("{name}: {found}"))?;
        }
    }
    let mut counts = [0_u64; KINDS.len()];
    let mut place_counts = [0_u64; PLACES.len()];
    for number in 0..cases {
        let files = random_files(&mut Random::new(seed, number));
        let text = files.text();
        agree(program, &files, &text)
            .map_err(|found| format!("case {number} of seed {seed}: {found}"))?;
        for (count, kind) in counts.iter_mut().zip(KINDS) {
            *count += u64::from(text.contains(kind));
        }
        let left = files.left();
        for (count, (place, _)) in place_counts.iter_mut().zip(PLACES) {
            *count += u64::from(left == place);
        }
    }
    let mut report = format!("{} fixed cases and {cases} random ones", fixed.len());
    for (count, kind) in counts.iter().zip(KINDS) {
        report += &format!(", {count} with {kind:?}");
    }
    for (count, (_, place)) in place_counts.iter().zip(PLACES) {
        report += &format!(", {count} with {place}");
    }
    if counts.contains(&0) || place_counts.contains(&0) {
        return Err(report + "; each must occur");
    }
    Ok(report + "; no difference")
}

fn agree(program: &Program, files: &Files, text: &str) -> Result<(), String> {
    let printed = program
        .run(files)
        .map_err(|failed| format!("{failed} for {files}"))?;
    if printed == text.as_bytes() {
        return Ok(());
    }
    let printed = String::from_utf8_lossy(&printed);
    Err(format!(
        "the program prints\n{printed}and not\n{text}for {files}"
    ))
}

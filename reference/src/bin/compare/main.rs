//! Compares the kit's static library, called over C, with the second program.

mod answer;
mod as_expected;
mod bad_merges;
mod block_counts;
mod case;
mod ceiling_cases;
mod check_many_cases;
mod counts;
mod crash;
mod credit_loop_cases;
mod damaged_blocks;
mod damaged_choices;
#[path = "../shared/damaged_fabric.rs"]
mod damaged_fabric;
#[path = "../shared/damaged_file.rs"]
mod damaged_file;
#[path = "../shared/damaged_proposal.rs"]
mod damaged_proposal;
mod damaged_state;
mod damaged_table;
mod difference;
mod each_alone;
mod fixed_cases;
mod follow_accepted;
mod follow_steps;
mod followed;
mod followed_ceilings;
mod followed_moves;
mod followed_signals;
mod followed_sums;
mod judged_block;
mod left_counts;
mod lent_memory;
mod library_side;
mod list;
mod merge_cases;
mod options;
mod pack_cases;
mod packs;
mod panel_cases;
mod random_calls;
mod random_cases;
mod random_ceilings;
mod random_check_many;
#[path = "../shared/random_fabrics.rs"]
mod random_fabrics;
mod random_lists;
mod random_reach;
mod reach_cases;
mod round_trip;
mod second_side;
mod trial;
mod wild_number;

use std::process::ExitCode;
use std::time::Instant;

use reference::random::Random;

use case::Case;
use fixed_cases::fixed_cases;
use options::{Options, USAGE};
use random_cases::random_case;
use trial::Trial;

/// How often each number of each call must be reached, how many tables of each sort must be packed,
/// how many blocks judged in each way, how many states refused because of a merge, how many proposals
/// must leave flows inside and outside the colour sets, and how many accepted sums, ceilings, signals
/// and moves must be followed through a list of calls.
const LEAST: u64 = 1000;

fn main() -> ExitCode {
    let Some(options) = Options::read(std::env::args().skip(1)) else {
        eprintln!("{USAGE}");
        return ExitCode::FAILURE;
    };
    crash::report_crashes();
    println!("seed {}", options.seed);
    match options.only {
        Some(number) => show(&options, number),
        None => compare(&options),
    }
}

/// The fixed cases come first; each other case follows from the seed and its number alone.
fn nth_case(fixed: &[Case], options: &Options, number: u64) -> Case {
    let random = || random_case(&mut Random::new(options.seed, number));
    fixed.get(number as usize).cloned().unwrap_or_else(random)
}

fn show(options: &Options, number: u64) -> ExitCode {
    let case = nth_case(&fixed_cases(), options, number);
    println!("case {number}\n{case}");
    crash::enter_case(number);
    match Trial::new().run(&case) {
        Ok(answer) => {
            println!("both sides answer {answer} and agree");
            ExitCode::SUCCESS
        }
        Err(difference) => {
            println!("{difference}");
            ExitCode::FAILURE
        }
    }
}

fn compare(options: &Options) -> ExitCode {
    let fixed = fixed_cases();
    let mut trial = Trial::new();
    let mut found = None;
    let mut number = 0;
    let begin = Instant::now();
    while found.is_none()
        && options
            .time
            .map_or(number < options.cases, |time| begin.elapsed() < time)
    {
        crash::enter_case(number);
        let case = nth_case(&fixed, options, number);
        found = trial
            .run(&case)
            .err()
            .map(|difference| format!("case {number}\n{case}\n{difference}"));
        number += 1;
    }
    let seconds = begin.elapsed().as_secs_f64();
    println!(
        "{number} cases, {} compared calls, {seconds:.1} s",
        trial.counts.total()
    );
    println!("{}", trial.packs);
    println!("{}", trial.followed);
    println!("{}", trial.blocks);
    println!("{}", trial.bad_merges);
    println!("{}", trial.left);
    println!("{}", trial.counts);
    verdict(found, &too_few(&trial))
}

/// What the cases came to fewer than `LEAST` times.
fn too_few(trial: &Trial) -> Vec<String> {
    let seldom = trial.counts.reached_too_seldom(LEAST).into_iter();
    let mut lines: Vec<String> = seldom
        .map(|(call, number, count)| format!("{call} came to number {number}: {count} times"))
        .collect();
    let too_few = trial.packs.too_few(LEAST);
    lines.extend(too_few.map(|(what, count)| format!("packed {what}: {count}")));
    let seldom = trial.followed.too_seldom(LEAST).into_iter();
    lines.extend(seldom.map(|(what, count)| format!("{what} followed through a list: {count}")));
    let too_few = trial.blocks.too_few(LEAST);
    lines.extend(too_few.map(|(what, count)| format!("blocks {what}: {count}")));
    let too_few = trial.bad_merges.too_few(LEAST);
    lines.extend(too_few.map(|(what, count)| format!("merges refused {what}: {count}")));
    let too_few = trial.left.too_few(LEAST);
    lines.extend(too_few.map(|(what, count)| format!("{what}: {count}")));
    lines
}

fn verdict(found: Option<String>, too_few: &[String]) -> ExitCode {
    if let Some(difference) = found {
        println!("{difference}");
        return ExitCode::FAILURE;
    }
    println!("no difference");
    for line in too_few {
        println!("{line}, fewer than {LEAST}");
    }
    if too_few.is_empty() {
        ExitCode::SUCCESS
    } else {
        ExitCode::FAILURE
    }
}

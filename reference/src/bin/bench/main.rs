//! Times the kit's static library, called over C, against the second program. A row `one / other`
//! has two calls of the library instead, `backwards` being the same fabric with its last component
//! first.

mod block_calls;
mod fabric_calls;
mod file_calls;
mod reach_calls;
mod sum_calls;
mod timing;

use reference::random::Random;
use reference::random_fabric::{random_fabric, Plan};
use reference::samples::{
    credit_loop, credit_loops, function_row, looped_queues, merge_row, queue_row, switch_row,
};
use reference::Fabric;

use file_calls::{time_pack, time_unpack};
use reach_calls::time_backwards;
use timing::Times;

fn main() {
    println!(
        "{:<30}{:<32}{:>12}{:>12}{:>8}",
        "fabric", "call", "library ns", "second ns", "ratio"
    );
    for (name, fabric) in subjects() {
        report(&name, "unpack", time_unpack(&fabric));
        report(&name, "pack", time_pack(&fabric));
        fabric_calls::time_all(&fabric, |call, times| report(&name, call, times));
        sum_calls::time_all(&fabric, |call, times| report(&name, call, times));
        block_calls::time_all(&fabric, |call, times| report(&name, call, times));
        reach_calls::time_all(&fabric, |call, times| report(&name, call, times));
    }
    for (name, chain) in chains() {
        report(name, "reach backwards / forwards", time_backwards(&chain));
    }
}

fn subjects() -> Vec<(String, Fabric)> {
    let mut subjects = vec![
        ("credit loop".to_string(), credit_loop()),
        ("21 credit loops".to_string(), credit_loops(21)),
        ("128 queues on themselves".to_string(), looped_queues(128)),
        ("128 in a row, 126 functions".to_string(), function_row(128)),
        ("63 switches into merges".to_string(), switch_row(63)),
        ("63 merges in a row, most hold".to_string(), merge_row(63)),
    ];
    for (number, colours) in [(1, 1), (2, 4), (3, 8), (4, 8)] {
        let plan = Plan {
            size: 128,
            colours,
            circles: false,
        };
        let fabric = random_fabric(&mut Random::new(1, number), &plan);
        subjects.push((
            format!("128 random, C {colours}, M {}", fabric.channels),
            fabric,
        ));
    }
    subjects
}

/// Chains of 128 components.
fn chains() -> [(&'static str, Fabric); 4] {
    [
        ("128 in a row, 126 queues", queue_row(128)),
        ("128 in a row, 126 functions", function_row(128)),
        ("63 switches into merges", switch_row(63)),
        ("63 merges in a row", merge_row(63)),
    ]
}

fn report(name: &str, call: &str, times: Times) {
    let Times { library, second } = times;
    println!(
        "{name:<30}{call:<32}{library:>12.0}{second:>12.0}{:>8.2}",
        library / second
    );
}

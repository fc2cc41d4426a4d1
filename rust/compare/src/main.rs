//! The whole comparison: `compare [--gate] [--seed N] [--random N] [--cases N] [--only WORDS]`. By default all f32
//! patterns, all pairs of channel values, 10 million random inputs for each call and one in 20 as many where an input
//! is a legend, and a seed from the clock. `--cases N` is about legends: N cases of them, and of the rest what the gate
//! runs. WORDS pick the comparisons that have them in their names. The program ends with 1 where there is a difference,
//! or where inputs that a comparison wants were not drawn, as in a run that is much smaller than the gate's.

use compare::plan::{Plan, run_all, runs};
use std::process::ExitCode;
use std::time::{SystemTime, UNIX_EPOCH};

fn main() -> ExitCode {
    if !oracle::PRESENT {
        println!("the reference's text is not here (LEGEND_ORACLE_SRC): records are compared with the rules alone");
    }
    let clock = SystemTime::now().duration_since(UNIX_EPOCH).map_or(0, |now| now.as_secs());
    let (mut seed, mut random, mut gate, mut cases, mut only) = (clock, 10_000_000, false, None, String::new());
    let mut words = std::env::args().skip(1);
    while let Some(word) = words.next() {
        let known = match word.as_str() {
            "--gate" => {
                gate = true;
                Some(())
            }
            "--seed" => words.next().and_then(|word| word.parse().ok()).map(|given| seed = given),
            "--random" => words.next().and_then(|word| word.parse().ok()).map(|given| random = given),
            "--cases" => words.next().and_then(|word| word.parse().ok()).map(|given| cases = Some(given)),
            "--only" => words.next().map(|given| only = given),
            _ => None,
        };
        if known.is_none() {
            eprintln!("usage: compare [--gate] [--seed N] [--random N] [--cases N] [--only WORDS]");
            return ExitCode::from(2);
        }
    }
    let plan = match cases {
        Some(cases) => Plan::cases(seed, cases),
        None if gate => Plan::gate(seed),
        None => Plan::full(seed, random),
    };
    if run_all(runs(), &plan, &only).0 { ExitCode::SUCCESS } else { ExitCode::FAILURE }
}

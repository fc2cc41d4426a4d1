//! The benchmark: `cargo run --release -p bench` times the library and the reference in one process, in rounds that
//! alternate, and writes `docs/BENCHMARK.md`. With `--print` it writes no file; `--rounds N` takes other than 11 rounds.

mod cards;
mod clock;
mod pairs;
mod rasters;
mod report;

use clock::{Row, time};
use pairs::{How, Pair};
use rasters::{PIXELS, random, smooth};
use std::path::Path;
use std::process::ExitCode;

const HOWS: [How; 4] = [How::Plain, How::Lanes(4), How::Lanes(8), How::Lanes(16)];

/// Rasters of about a million pixels.
fn large(rounds: usize) -> Vec<Row> {
    let mut rows = vec![];
    for pair in Pair::all() {
        for (name, raster) in [("smooth", smooth(PIXELS, pair.range)), ("random", random(PIXELS, pair.range))] {
            rows.extend(HOWS.map(|how| time(&pair, how, name, &raster, rounds, 1)));
        }
    }
    rows
}

/// Rasters of 64 pixels, many calls a measurement.
fn small(rounds: usize) -> Vec<Row> {
    let mut rows = vec![];
    for pair in Pair::all() {
        let raster = random(64, pair.range);
        rows.extend(HOWS.map(|how| time(&pair, how, "random", &raster, rounds, 2000)));
    }
    rows
}

/// How time grows with the raster: 1,024 to 16,777,216 pixels.
fn growth(rounds: usize) -> Vec<Row> {
    let linear = &Pair::all()[0];
    let mut rows = vec![];
    for how in [How::Plain, How::Lanes(8)] {
        for power in (10..=24).step_by(2) {
            let raster = smooth(1 << power, linear.range);
            rows.push(time(linear, how, "smooth", &raster, rounds, (1usize << 18 >> power).max(1)));
        }
    }
    rows
}

fn main() -> ExitCode {
    if !oracle::PRESENT {
        eprintln!("nothing is timed: the reference's text is not here (LEGEND_ORACLE_SRC)");
        return ExitCode::FAILURE;
    }
    let words: Vec<String> = std::env::args().skip(1).collect();
    let rounds = words.iter().position(|word| word == "--rounds").and_then(|at| words.get(at + 1)?.parse().ok());
    let rounds = rounds.unwrap_or(11);
    let report = report::text(&large(rounds), &small(rounds), &growth(rounds), &cards::cards(rounds), rounds);
    print!("{report}");
    if words.iter().any(|word| word == "--print") {
        return ExitCode::SUCCESS;
    }
    let file = Path::new(env!("CARGO_MANIFEST_DIR")).join("../../docs/BENCHMARK.md");
    match std::fs::write(&file, report) {
        Ok(()) => ExitCode::SUCCESS,
        Err(error) => {
            eprintln!("docs/BENCHMARK.md is not written: {error}");
            ExitCode::FAILURE
        }
    }
}

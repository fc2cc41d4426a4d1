//! The report, as docs/BENCHMARK.md has it.

use crate::cards::Card;
use crate::clock::Row;
use crate::pairs::How;
use std::fmt::Write;
use std::fs;
use std::process::Command;
use std::thread;

fn how(row: &Row) -> String {
    match row.how {
        How::Plain => "plain".into(),
        How::Lanes(lanes) => format!("{lanes} lanes"),
    }
}

/// A number with commas.
fn grouped(number: usize) -> String {
    let digits = number.to_string();
    let groups: Vec<&str> = digits.as_bytes().rchunks(3).rev().map(|g| str::from_utf8(g).expect("digits")).collect();
    groups.join(",")
}

fn mean_ratio<'a>(rows: impl Iterator<Item = &'a Row>) -> f64 {
    let (sum, count) = rows.fold((0.0, 0), |(sum, count), row| (sum + row.ratio().ln(), count + 1));
    (sum / f64::from(count)).exp()
}

/// The geometric means: lanes by themselves too, since the Rust text's vectors are not the real ones.
fn means(rows: &[Row]) -> String {
    let plain = mean_ratio(rows.iter().filter(|row| row.how == How::Plain));
    let lanes = mean_ratio(rows.iter().filter(|row| row.how != How::Plain));
    format!("Geometric mean of the ratios: {:.2}; plain {plain:.2}, lanes {lanes:.2}.", mean_ratio(rows.iter()))
}

fn processor() -> String {
    let known = fs::read_to_string("/proc/cpuinfo").unwrap_or_default();
    let name = known.lines().find_map(|line| line.strip_prefix("model name")?.split_once(": ").map(|parts| parts.1));
    name.unwrap_or("a processor without a name").to_string()
}

/// How busy the machine was in the last minute: other work makes every time longer, and not by the same.
fn load() -> String {
    let known = fs::read_to_string("/proc/loadavg").unwrap_or_default();
    let processors = thread::available_parallelism().map_or(1, usize::from);
    format!("{} over {processors} processors", known.split(' ').next().unwrap_or_default())
}

fn today() -> String {
    let said = Command::new("date").args(["-u", "+%Y-%m-%d"]).output().ok();
    said.and_then(|said| String::from_utf8(said.stdout).ok()).map_or("no date".into(), |date| date.trim().to_string())
}

const METHOD: &str = "\
One process, one thread, release builds of both, the same rasters. For each row the two sides are run in turn, and \
each time is the median of its rounds; the first round does not count. Before a row is timed the colours of both sides \
are seen to be equal.

- The library paints into one lent buffer, which all rounds of a row use again. No buffer is cleared between rounds: \
each painting overwrites every pixel.
- The Rust text allocates its output. Its plain painting (`apply_scalar`) is timed as its user has it: the call, its \
allocation, and the freeing.
- Its kernel of lane painting is timed into an existing buffer, used again and not cleared. Keys without a table have \
no kernel: both sides paint them plainly, the Rust text by `apply_simd`, which allocates.
- The Rust text's vectors are arrays here (`rust/oracle/fearless_simd`), compiled for the baseline processor. What the \
real crate does with wide registers is not measured, so the lane rows do not say how the two would compare there.
- Smooth rasters are waves. Random ones have no relation between neighbours, and one sample in 64 is nodata. Both go \
5 % beyond the legend on either side.
";

const CARDS: &str = "\
The library alone: the Rust text has none. Each card has a title of 255 bytes; the last of each kind is its largest. \
Writing goes into one buffer, reading makes the legend, some 7,000 bytes, and handing the title out tests the whole \
card. What a card without entries takes is the record's copying.";

/// The whole page.
pub fn text(large: &[Row], small: &[Row], growth: &[Row], cards: &[Card], rounds: usize) -> String {
    let mut page = String::from("# Benchmark\n\n");
    let line = format!("Processor: {}. Date: {}. Rounds: {rounds}. Load: {}.", processor(), today(), load());
    let _ = writeln!(page, "Written by `cargo run --release -p bench` in `rust/`. {line}\n\n{METHOD}");
    let _ = writeln!(page, "A ratio is the library's time over the Rust text's: below 1 the library is faster.\n");
    let all: Vec<(&str, &[Row])> = vec![("1,048,576 pixels", large), ("64 pixels", small)];
    for (name, rows) in all {
        let _ = writeln!(page, "## {name}\n\n{}\n", means(rows));
        let _ = writeln!(page, "| Legend | Painting | Raster | Library, ns a pixel | Rust text, ns a pixel | Ratio |");
        let _ = writeln!(page, "|---|---|---|--:|--:|--:|");
        for row in rows {
            let each = |time: f64| time / row.pixels as f64;
            let (ours, theirs) = (each(row.ours), each(row.theirs));
            let head = format!("{} | {} | {}", row.legend, how(row), row.raster);
            let _ = writeln!(page, "| {head} | {ours:.2} | {theirs:.2} | {:.2} |", row.ratio());
        }
        page.push('\n');
    }
    let _ = writeln!(page, "## How time grows\n\nA linear legend over a smooth raster.\n");
    let _ = writeln!(page, "| Painting | Pixels | Library, µs | ns a pixel | Rust text, µs | ns a pixel | Ratio |");
    let _ = writeln!(page, "|---|--:|--:|--:|--:|--:|--:|");
    for row in growth {
        let cells = |time: f64| format!("{:.1} | {:.2}", time / 1000.0, time / row.pixels as f64);
        let head = format!("{} | {}", how(row), grouped(row.pixels));
        let _ = writeln!(page, "| {head} | {} | {} | {:.2} |", cells(row.ours), cells(row.theirs), row.ratio());
    }
    let _ = writeln!(page, "\n## Cards\n\n{CARDS}\n");
    let _ = writeln!(page, "| Legend | Bytes | Write, ns | ns a byte | Read, ns | ns a byte | Title, ns |");
    let _ = writeln!(page, "|---|--:|--:|--:|--:|--:|--:|");
    for Card { legend, bytes, write, read, title } in cards {
        let cells = |time: &f64| format!("{time:.0} | {:.2}", time / *bytes as f64);
        let _ = writeln!(page, "| {legend} | {} | {} | {} | {title:.0} |", grouped(*bytes), cells(write), cells(read));
    }
    page
}

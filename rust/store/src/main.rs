//! Writes the reference's answers to `crates/run_replay/data/answers.bin`, and some of them with a word changed to
//! `crates/run_replay/data/damaged.bin`, the same files at every run: `cargo run --release -p store`.
//! `crates/run_replay/README.md` says what a row holds.

mod damage;
mod leaves;
mod legends;
mod random;
mod row;
mod rules;

use random::Random;
use row::Row;
use std::{
    fs,
    path::{Path, PathBuf},
    process,
};

const SEED: u64 = 0x6c65_6765_6e64;

/// How many rows there are of each sort, after one for each palette.
const HEX: u64 = 400;
const LOOKUPS: u64 = 400;
const TRUNCATED: u64 = 200;
const LEGENDS: u64 = 640;

fn main() {
    if !oracle::PRESENT {
        eprintln!("the reference's text is not here (LEGEND_ORACLE_SRC)");
        process::exit(1);
    }
    for (file, bytes) in files() {
        fs::create_dir_all(file.parent().expect("the file is in a folder")).expect("the folder can be made");
        fs::write(&file, bytes).expect("the file can be written");
    }
}

/// The files, with what they hold.
fn files() -> [(PathBuf, Vec<u8>); 2] {
    let file = |name| Path::new(env!("CARGO_MANIFEST_DIR")).join("../../crates/run_replay/data").join(name);
    let rows = rows();
    [(file("answers.bin"), bytes(&rows)), (file("damaged.bin"), bytes(&damage::rows(&rows)))]
}

/// A file: how many rows there are, and the rows.
fn bytes(rows: &[Row]) -> Vec<u8> {
    let count = u32::try_from(rows.len()).expect("there are few rows");
    [count].into_iter().chain(rows.iter().flat_map(Row::stored)).flat_map(u32::to_le_bytes).collect()
}

fn rows() -> Vec<Row> {
    let mut numbers = 0..;
    let mut random = || Random::new(SEED, numbers.next().expect("numbers do not end"));
    let mut rows: Vec<Row> = (0..oracle::palette_names().len()).map(leaves::palette).collect();
    rows.extend((0..HEX).map(|_| leaves::hex(&mut random())));
    rows.extend((0..LOOKUPS).map(|_| leaves::lookup(&mut random())));
    rows.extend((0..TRUNCATED).map(|_| leaves::truncated(&mut random())));
    rows.extend((0..LEGENDS).map(|number| legends::row(number, &mut random())));
    rows
}

#[cfg(test)]
mod tests {
    #[test]
    #[cfg_attr(no_oracle, ignore = "the reference's text is absent")]
    fn the_files_are_what_the_reference_answers() {
        for (file, bytes) in super::files() {
            assert!(bytes == std::fs::read(file).expect("the file is there"), "cargo run --release -p store");
        }
    }
}

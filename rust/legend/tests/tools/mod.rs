//! What the tests that compile C have in common.

#![allow(dead_code)]

use std::collections::BTreeSet;
use std::fs;
use std::path::{Path, PathBuf};
use std::process::Command;

pub const ARCHIVE: &str = env!("LEGEND_C_ARCHIVE");

/// The folder for files that tests write.
pub const FOLDER: &str = env!("CARGO_TARGET_TMPDIR");

const STRICT: [&str; 4] = ["-Wall", "-Wextra", "-Werror", "-pedantic"];

pub fn repository() -> PathBuf {
    Path::new(env!("CARGO_MANIFEST_DIR")).join("../..")
}

pub fn header() -> String {
    fs::read_to_string(repository().join("include/legend.h")).expect("the header is there")
}

/// The names that stand after each `mark`.
pub fn words_after(text: &str, mark: &str) -> BTreeSet<String> {
    let name = |part: &str| part.chars().take_while(|c| c.is_alphanumeric() || *c == '_').collect();
    text.split(mark).skip(1).map(name).collect()
}

/// The names of the calls that a text declares or has bodies of, in C or in Rust.
pub fn declared(text: &str) -> BTreeSet<String> {
    let names = [" legend_", "*legend_"].into_iter().flat_map(|mark| words_after(text, mark));
    let calls = names.map(|name| format!("legend_{name}"));
    calls.filter(|name| text.contains(&format!("{name}("))).collect()
}

/// Runs a command, which has to succeed, and gives what it wrote.
pub fn run(command: &mut Command) -> String {
    let ran = command.output().unwrap_or_else(|error| panic!("{command:?}: {error}"));
    assert!(ran.status.success(), "{command:?}\n{}", String::from_utf8_lossy(&ran.stderr));
    String::from_utf8(ran.stdout).expect("text")
}

/// A compiler with every warning an error, in the folder for files that tests write.
pub fn compiler(name: &str, standard: &str) -> Command {
    let mut command = Command::new(name);
    command.current_dir(FOLDER).arg(standard).args(STRICT).arg("-I").arg(repository().join("include"));
    command
}

/// Compiles a C program with the library, runs it, and gives what it wrote.
pub fn run_c(source: &Path, name: &str) -> String {
    let program = Path::new(FOLDER).join(name);
    run(compiler("cc", "-std=c11").arg(source).arg(ARCHIVE).arg("-o").arg(&program));
    run(&mut Command::new(program))
}

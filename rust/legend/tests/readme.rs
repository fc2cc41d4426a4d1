//! The programs of the README's "First use": they compile and run as they stand, and print the same.

mod tools;

use std::fs;
use std::path::Path;
use std::process::Command;
use tools::{ARCHIVE, FOLDER, repository, run, run_c};

/// The first block that is fenced as `language`, below the heading.
fn block(language: &str) -> String {
    let readme = fs::read_to_string(repository().join("README.md")).expect("the README is there");
    let section = readme.split("\n## First use\n").nth(1).expect("the README has the heading First use");
    let section = section.split("\n## ").next().unwrap_or(section);
    let fenced = section.split(&format!("\n```{language}\n")).nth(1);
    let fenced = fenced.unwrap_or_else(|| panic!("First use has no block that is fenced as {language}"));
    fenced.split("\n```").next().unwrap_or(fenced).to_string() + "\n"
}

/// Writes a file into a new folder for this test.
fn written(name: &str, text: &str) -> std::path::PathBuf {
    let file = Path::new(FOLDER).join("readme").join(name);
    fs::create_dir_all(file.parent().expect("a folder")).expect("the folder is writable");
    fs::write(&file, text).expect("the folder is writable");
    file
}

/// Runs a Rust program that has the crate and nothing else, as a user's own package.
fn run_rust(program: &str) -> String {
    let here = env!("CARGO_MANIFEST_DIR");
    let package = "[package]\nname = \"first_use\"\nedition = \"2024\"\n\n[workspace]\n\n[dependencies]\n";
    let manifest = written("Cargo.toml", &format!("{package}legend = {{ path = {here:?} }}\n"));
    written("src/main.rs", program);
    let archive = Path::new(ARCHIVE).parent().expect("the archive is in a folder");
    let mut command = Command::new(env!("CARGO"));
    command.args(["run", "--quiet", "--offline", "--manifest-path"]).arg(manifest);
    command.arg("--target-dir").arg(Path::new(FOLDER).join("readme/target"));
    run(command.env("LEGEND_STATICLIB", archive).env("RUSTFLAGS", "-D warnings"))
}

#[test]
fn both_programs_print_the_same() {
    let from_c = run_c(&written("first_use.c", &block("c")), "first_use");
    let from_rust = run_rust(&block("rust"));
    assert!(!from_c.is_empty());
    assert_eq!(from_c, from_rust);
}

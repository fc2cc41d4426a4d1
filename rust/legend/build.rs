//! Finds liblegend_c.a, and makes it where it is missing or older than its source: the repository's `library` proves
//! and compiles it. LEGEND_STATICLIB may name a folder that has it.

use std::path::{Path, PathBuf};
use std::process::Command;
use std::time::SystemTime;
use std::{env, fs};

const ARCHIVE: &str = "liblegend_c.a";
/// What a shell answers where a command, here rt, is not there.
const NO_SUCH_COMMAND: i32 = 127;

fn main() {
    println!("cargo:rerun-if-env-changed=LEGEND_STATICLIB");
    let folder = env::var_os("LEGEND_STATICLIB").map_or_else(made, PathBuf::from);
    let archive = folder.join(ARCHIVE);
    assert!(archive.is_file(), "no {}", archive.display());
    println!("cargo:rerun-if-changed={}", archive.display());
    println!("cargo:rustc-link-search=native={}", folder.display());
    println!("cargo:rustc-link-lib=static=legend_c");
    // For the tests that compile C.
    println!("cargo:rustc-env=LEGEND_C_ARCHIVE={}", archive.display());
}

fn repository() -> PathBuf {
    let crate_folder = PathBuf::from(env::var("CARGO_MANIFEST_DIR").expect("cargo names the crate's folder"));
    crate_folder.ancestors().nth(2).expect("the crate stands in the repository").to_path_buf()
}

/// The repository's own archive, made anew where it has to be.
fn made() -> PathBuf {
    let repository = repository();
    let folder = repository.join("target/staticlib");
    let crates = repository.join("crates");
    println!("cargo:rerun-if-changed={}", crates.display());
    println!("cargo:rerun-if-changed={}", repository.join("crates.txt").display());
    println!("cargo:rerun-if-changed={}", repository.join("library").display());
    if changed(&folder.join(ARCHIVE)).is_some_and(|made| sources(&crates).all(|source| changed(&source) <= Some(made)))
    {
        return folder;
    }
    let run = Command::new(repository.join("library")).output().expect("`library` can be run");
    if run.status.code() == Some(NO_SUCH_COMMAND) && folder.join(ARCHIVE).is_file() {
        println!("cargo:warning=rt is not here: {ARCHIVE} is linked as it is, older than its source");
    } else if !run.status.success() {
        let said = [run.stdout, run.stderr].map(|text| String::from_utf8_lossy(&text).into_owned()).concat();
        let end: Vec<_> = said.lines().rev().take(20).collect();
        panic!("no {ARCHIVE}; `library` failed:\n{}", end.into_iter().rev().collect::<Vec<_>>().join("\n"));
    }
    folder
}

fn changed(file: &Path) -> Option<SystemTime> {
    fs::metadata(file).and_then(|known| known.modified()).ok()
}

/// The source files of every crate.
fn sources(crates: &Path) -> impl Iterator<Item = PathBuf> {
    let files = |folder: PathBuf| fs::read_dir(folder).into_iter().flatten().flatten().map(|entry| entry.path());
    files(crates.to_path_buf()).flat_map(move |name| files(name.join("src")))
}

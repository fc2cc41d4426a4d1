//! What the pages name: files and folders of the repository or of `crates/`, laws and definitions of a file, edits of a
//! crate, and lines of a file that a page shows.

use crate::read;
use std::path::{Path, PathBuf};

/// What a page names or shows that is not there.
pub fn missing(repository: &Path, page: &str) -> Vec<String> {
    missing_in(repository, page, &read(&repository.join(page)))
}

pub fn missing_in(repository: &Path, page: &str, text: &str) -> Vec<String> {
    let mut missing = Vec::new();
    let mut shown = None;
    for line in text.lines() {
        if let Some(info) = line.trim_start().strip_prefix("```") {
            shown = match shown {
                None => Some(info.split_once(' ').map(|(_, file)| file.to_owned())),
                Some(_) => None,
            };
            continue;
        }
        match &shown {
            None => missing.extend(named(repository, line).iter().map(|name| format!("{page}: {name}"))),
            Some(Some(file)) if !read(&place(repository, file)).lines().any(|other| other == line) => {
                missing.push(format!("{page}: the line `{line}` of `{file}`"));
            }
            Some(_) => {}
        }
    }
    missing
}

/// What a list of names goes on with.
enum List<'a> {
    Nothing,
    /// Laws and definitions of a file.
    File(&'a str),
    /// Edits of a crate.
    Edits(&'a str),
}

/// What a line names between backticks that is not there.
fn named(repository: &Path, line: &str) -> Vec<String> {
    let mut missing = Vec::new();
    let mut list = List::Nothing;
    for (number, piece) in line.split('`').enumerate() {
        // The pieces between backticks have odd numbers.
        if number % 2 == 0 {
            if !matches!(piece, ": " | ", " | "; ") {
                list = List::Nothing;
            }
            continue;
        }
        let Some((first, rest)) = piece.split_once('/').filter(|_| !piece.contains([' ', '*', '<', '>'])) else {
            match list {
                List::File(file) if !words(&read(&place(repository, file))).any(|word| word == piece) => {
                    missing.push(format!("`{piece}` in `{file}`"));
                }
                List::Edits(name) if !edit(repository, name, piece).exists() => {
                    missing.push(format!("`{piece}` of `{name}`"));
                }
                _ => {}
            }
            continue;
        };
        list = List::Nothing;
        if edit(repository, first, rest).exists() {
            list = List::Edits(first);
        } else if place(repository, piece).exists() {
            if piece.ends_with(".antt") {
                list = List::File(piece);
            }
        } else if is_folder(repository, first) {
            missing.push(format!("`{piece}`"));
        }
    }
    missing
}

/// A path below `crates/`, or else of the repository.
fn place(repository: &Path, path: &str) -> PathBuf {
    let below = repository.join("crates").join(path);
    if below.exists() { below } else { repository.join(path) }
}

fn edit(repository: &Path, name: &str, edit: &str) -> PathBuf {
    repository.join("crates").join(name).join("must-fail").join(format!("{edit}.edit"))
}

/// Whether a path that starts so is one of ours. What is built is not there before it is built.
fn is_folder(repository: &Path, name: &str) -> bool {
    name != "target" && name != "pictures" && place(repository, name).is_dir()
}

fn words(text: &str) -> impl Iterator<Item = &str> {
    text.split(|c: char| !c.is_alphanumeric() && !"_-→'".contains(c))
}

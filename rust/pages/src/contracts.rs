//! The page of contracts.

use crate::{names, read};
use std::{fmt::Write, path::Path};

/// A definition that a contract cites, and its file below `crates/`.
pub type Cited = (String, String);

pub fn page(repository: &Path) -> String {
    let mut page = String::from(
        "# Contracts and edits, crate by crate\n\n\
         For each crate: its public functions, with the definitions that their contracts cite, and its must-fail edits, \
         which the prover refuses. `cargo run --release -p pages`, in `rust/`, writes this page from the crates; `./test` \
         compares the two. docs/PROMISES.md says what is promised of the whole. A path is below `crates/`.\n",
    );
    let crates = read(&repository.join("crates.txt"));
    page += &rules(repository, &crates);
    for line in crates.lines().skip(1) {
        if let Some(part) = line.strip_prefix("# ") {
            write!(page, "\n## {}\n", part.trim_end_matches('.')).expect("a string takes it");
        } else if let Some(name) = listed(line) {
            page += &section(repository, name);
        }
    }
    page
}

/// The crate that a line of crates.txt lists.
fn listed(line: &str) -> Option<&str> {
    let (name, _) = line.split_once(':').filter(|_| !line.starts_with('#'))?;
    name.split(' ').next()
}

/// The definitions that write a heading of docs/RULES.md down: the files of `specs/` whose heads name it.
fn rules(repository: &Path, crates: &str) -> String {
    let mut files = Vec::new();
    for name in crates.lines().filter_map(listed) {
        let folder = repository.join("crates").join(name).join("specs");
        for file in names(&folder).iter().filter(|file| file.ends_with(".antt") && *file != "Lib.antt") {
            files.push((format!("{name}/specs/{file}"), head(&read(&folder.join(file)), "--").join(" ")));
        }
    }
    let mut table = String::from(
        "\n## Definitions by the rule that they write down\n\nThe files of `specs/` whose heads name a heading of docs/RULES.md.\n\n\
         | Heading | Definitions |\n|---|---|\n",
    );
    for heading in read(&repository.join("docs/RULES.md")).lines().filter_map(|line| line.strip_prefix("## ")) {
        let quoted = format!("\"{heading}\"");
        let cited: Vec<String> =
            files.iter().filter(|(_, head)| head.contains(&quoted)).map(|(file, _)| format!("`{file}`")).collect();
        writeln!(table, "| {heading} | {} |", cited.join(", ")).expect("a string takes it");
    }
    table
}

fn section(repository: &Path, name: &str) -> String {
    let folder = repository.join("crates").join(name);
    let mut section = format!("\n### {name}\n");
    let mut rows = String::new();
    for file in files(&folder.join("src")) {
        let source = read(&folder.join("src").join(&file));
        if file == "lib.rt" || file == "main.rt" {
            let about = comment(&source);
            if !about.is_empty() {
                write!(section, "\n{about}\n").expect("a string takes it");
            }
        }
        let module = match file.as_str() {
            "lib.rt" | "main.rt" => String::new(),
            other => format!("{}::", other.trim_end_matches(".rt")),
        };
        for (function, cited) in functions(&source) {
            let cited: Vec<String> = cited.iter().map(|(name, file)| format!("`{name}` (`{file}`)")).collect();
            writeln!(rows, "| `{module}{function}` | {} |", cited.join(", ")).expect("a string takes it");
        }
    }
    if !rows.is_empty() {
        write!(section, "\n| Function | Its contract cites |\n|---|---|\n{rows}").expect("a string takes it");
    }
    let edits: Vec<String> = names(&folder.join("must-fail"))
        .iter()
        .filter_map(|name| name.strip_suffix(".edit"))
        .map(|name| format!("`{name}`"))
        .collect();
    if !edits.is_empty() {
        write!(section, "\nEdits: {}.\n", edits.join(", ")).expect("a string takes it");
    }
    section
}

/// The files of a source folder, the crate's root first.
fn files(folder: &Path) -> Vec<String> {
    let mut files = names(folder);
    files.sort_by_key(|name| (name != "lib.rt" && name != "main.rt", name.clone()));
    files
}

/// The first paragraph of the comment at the head of a file.
fn comment(source: &str) -> String {
    head(source, "//").split(|line| line.is_empty()).next().unwrap_or_default().join(" ")
}

/// The lines of the comment at the head of a file.
fn head<'a>(source: &'a str, mark: &str) -> Vec<&'a str> {
    source.lines().map_while(|line| line.strip_prefix(mark)).map(str::trim).collect()
}

/// The public functions of a file, with what their `ensures` cite of some crate's `specs/`.
pub fn functions(source: &str) -> impl Iterator<Item = (String, Vec<Cited>)> + '_ {
    let definitions = definitions(source);
    let mut owner = String::new();
    let mut of_trait = false;
    let mut lines = source.lines().peekable();
    std::iter::from_fn(move || {
        loop {
            let line = lines.next()?;
            if let Some((kind, name)) = owner_of(line) {
                owner = format!("{name}::");
                of_trait = kind == Owner::Trait;
            } else if line == "}" {
                owner.clear();
                of_trait = false;
            }
            let Some(name) = function(line, of_trait) else { continue };
            let mut contract = String::new();
            // A head with no clause ends on its last line, one with clauses on a line of its own, a trait's with its last clause.
            let (mut clauses, mut ensures) = (false, false);
            let mut ended = line.ends_with(['{', '}', ';']);
            while let Some(line) = lines.next_if(|_| !ended) {
                let clause = line.trim_start();
                if clause == "{" || !clauses && clause.ends_with(['{', '}']) && !begins(clause) {
                    ended = true;
                    continue;
                }
                clauses |= begins(clause);
                ensures = clause.starts_with("ensures ") || ensures && !clause.starts_with("requires ");
                if ensures {
                    contract += line;
                }
                ended = of_trait && clause.ends_with("};");
            }
            let words: Vec<&str> = contract.split(|c: char| !c.is_alphanumeric() && c != '_' && c != '-').collect();
            let cited = definitions.iter().filter(|(name, _)| words.contains(&name.as_str())).cloned().collect();
            return Some((format!("{owner}{name}"), cited));
        }
    })
}

/// Whether a line begins a clause of a contract.
fn begins(line: &str) -> bool {
    line.starts_with("requires ") || line.starts_with("ensures ")
}

/// What a function's owner is.
#[derive(PartialEq, Eq)]
enum Owner {
    Type,
    Trait,
}

/// The type of an `impl` block or the public trait that begins with a line, without its parameters. The functions of a trait's `impl` are the trait's.
fn owner_of(line: &str) -> Option<(Owner, &str)> {
    let (kind, rest) = match line.strip_prefix("pub trait ") {
        Some(rest) => (Owner::Trait, rest),
        None => (Owner::Type, line.strip_prefix("impl")?),
    };
    let rest = match rest.strip_prefix('<') {
        Some(parameters) => parameters.split_once("> ")?.1,
        None => rest.trim_start(),
    };
    Some((kind, rest.split([' ', '<', ':']).next()?))
}

/// The name of a function that is public, by itself or as its trait's.
fn function(line: &str, of_trait: bool) -> Option<&str> {
    let rest = line.trim_start();
    let rest = match rest.strip_prefix("pub ") {
        Some(public) => public,
        None if of_trait => rest,
        None => return None,
    };
    let rest = rest.strip_prefix("extern \"C\" ").unwrap_or(rest).strip_prefix("fn ")?;
    rest.split(['(', '<']).next()
}

/// What a file's `ghost use` lines bring in of `specs/`, types that the source declares left out.
fn definitions(source: &str) -> Vec<Cited> {
    let mut definitions = Vec::new();
    for line in source.lines() {
        let Some(path) = line.trim_start().strip_prefix("ghost use Rattle.") else { continue };
        let Some((file, list)) = path.trim_end_matches(';').split_once(".{") else { continue };
        if file.starts_with("std.") || file.contains(".declared.") || !file.contains(".specs.") {
            continue;
        }
        let file = format!("{}.antt", file.replace('.', "/"));
        for name in list.trim_end_matches('}').split(',') {
            definitions.push((name.trim().to_owned(), file.clone()));
        }
    }
    definitions
}

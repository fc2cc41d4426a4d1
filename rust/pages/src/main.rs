//! Writes `docs/CONTRACTS.md` from the crates: for each, its public functions with the definitions that their contracts
//! cite, and its must-fail edits. `cargo run --release -p pages`. The tests compare the page with the tree, and look up
//! the files, laws and edits that the other pages name.

mod contracts;
#[cfg(test)]
mod links;

use std::{
    fs,
    path::{Path, PathBuf},
};

fn main() {
    fs::write(repository().join("docs/CONTRACTS.md"), contracts::page(&repository())).expect("the page can be written");
}

fn repository() -> PathBuf {
    Path::new(env!("CARGO_MANIFEST_DIR")).join("../..")
}

/// The names in a folder, in order; none where there is no such folder.
fn names(folder: &Path) -> Vec<String> {
    let mut names: Vec<String> = fs::read_dir(folder)
        .into_iter()
        .flatten()
        .map(|entry| entry.expect("the folder can be read").file_name().into_string().expect("names are UTF-8"))
        .collect();
    names.sort();
    names
}

fn read(path: &Path) -> String {
    fs::read_to_string(path).unwrap_or_else(|error| panic!("{}: {error}", path.display()))
}

#[cfg(test)]
mod tests {
    use super::{contracts, links, names, read, repository};

    #[test]
    fn the_page_is_what_the_crates_give() {
        let page = read(&repository().join("docs/CONTRACTS.md"));
        assert!(page == contracts::page(&repository()), "cargo run --release -p pages");
    }

    #[test]
    fn what_the_pages_name_is_there() {
        let mut missing = Vec::new();
        for name in ["README.md", "CONTRIBUTING.md", "crates/run_replay/README.md"] {
            missing.extend(links::missing(&repository(), name));
        }
        for name in names(&repository().join("docs")).iter().filter(|name| name.ends_with(".md")) {
            missing.extend(links::missing(&repository(), &format!("docs/{name}")));
        }
        assert!(missing.is_empty(), "named, but not there:\n{}", missing.join("\n"));
    }

    #[test]
    fn what_is_not_there_is_found() {
        let text = "`lists/specs/Lanes.antt`: `LanesOf`, `NoSuchLaw`\n`painting/scratch_left_as_it_was`, `no_such_edit`\n\
                    `lists/specs/NoSuchFile.antt`, `lists/no_such_edit`, `no/folder`\n\
                    ```antt lists/specs/Lib.antt\npub mod Lanes\npub mod NoSuchModule\n```\n";
        assert_eq!(
            links::missing_in(&repository(), "page", text),
            [
                "page: `NoSuchLaw` in `lists/specs/Lanes.antt`",
                "page: `no_such_edit` of `painting`",
                "page: `lists/specs/NoSuchFile.antt`",
                "page: `lists/no_such_edit`",
                "page: the line `pub mod NoSuchModule` of `lists/specs/Lib.antt`",
            ]
        );
    }

    #[test]
    fn a_contract_is_read() {
        let source = "// Halves.\nghost use Rattle.std.specs.Prelude.{length};\nghost use Rattle.half.specs.Half.{half, whole};\n\n\
                      pub fn bare(\n    x: u32,\n) -> u32 {\n    x\n}\n\npub fn short() -> u32 {\n    1\n}\n\nimpl Two {\n    \
                      pub fn halved(self) -> u32\n        requires { whole self }\n        ensures { result\n            ≡ half (length self) }\n    {\n        \
                      1\n    }\n}\n\nfn own() {}\n\npub fn quiet() {}\n\npub trait Part: Copy {\n    fn part(self) -> u32\n        ensures { \
                      result ≡ half (as_number self) };\n\n    fn other(self) -> u32;\n}\n\nimpl Part for u32 {\n    fn part(self) -> u32 {\n        \
                      self\n    }\n}\n\nimpl<'a> Lent<'a> {\n    ghost use Rattle.half.specs.Lent.{lent};\n\n    pub fn lent(self) -> u32\n        \
                      ensures { result ≡ lent self }\n    {\n        2\n    }\n}\n";
        let functions: Vec<_> = contracts::functions(source).collect();
        assert_eq!(
            functions,
            [
                ("bare".to_owned(), vec![]),
                ("short".to_owned(), vec![]),
                ("Two::halved".to_owned(), vec![("half".to_owned(), "half/specs/Half.antt".to_owned())]),
                ("quiet".to_owned(), vec![]),
                ("Part::part".to_owned(), vec![("half".to_owned(), "half/specs/Half.antt".to_owned())]),
                ("Part::other".to_owned(), vec![]),
                ("Lent::lent".to_owned(), vec![("lent".to_owned(), "half/specs/Lent.antt".to_owned())])
            ]
        );
    }
}

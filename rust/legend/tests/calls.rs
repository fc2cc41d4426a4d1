//! Every call of the header is run from C, by `c/calls.c`, which knows what each has to answer. That it sees two fields
//! or two parameters change places is tested with headers in which they do: to the program that is the same as a library
//! in which they do.

mod tools;

use std::collections::BTreeSet;
use std::fs;
use std::ops::Range;
use std::path::{Path, PathBuf};
use std::process::{Command, Output};
use std::sync::Mutex;
use std::thread;
use tools::{ARCHIVE, FOLDER, declared, header, repository, run_c};

/// The names of the calls that the program has made, and of those that it gave NULL beside lengths of 0.
fn called() -> [BTreeSet<String>; 2] {
    let said = run_c(&repository().join("c/calls.c"), "calls");
    let (null, called): (Vec<&str>, Vec<&str>) = said.lines().partition(|line| line.starts_with("NULL: "));
    let names = |lines: Vec<&str>| lines.iter().map(|line| line.replace("NULL: ", "")).collect();
    [names(called), names(null)]
}

#[test]
fn every_call_is_run_from_c() {
    let header = header();
    let [called, with_null] = called();
    assert_eq!(called, declared(&header));
    let counted = |name: &String| parameters(&signature(&header, name).1).iter().any(|given| given.names.len() == 2);
    assert_eq!(with_null, declared(&header).into_iter().filter(counted).collect());
}

#[test]
fn a_call_that_is_not_run_is_seen() {
    for added in ["LegendAnswer legend_added(size_t count);", "static inline int legend_added(size_t count) {"] {
        let more = declared(&format!("{}\n{added}\n", header()));
        assert!(more.contains("legend_added") && more.len() == declared(&header()).len() + 1);
    }
}

/// The program, compiled against a header.
fn program(header: &str, name: &str) -> PathBuf {
    let folder = Path::new(FOLDER).join("swapped").join(name);
    fs::create_dir_all(&folder).expect("the folder is writable");
    fs::write(folder.join("legend.h"), header).expect("the folder is writable");
    let program = folder.join("calls");
    let mut command = Command::new("cc");
    command.args(["-std=c11", "-w", "-I"]).arg(&folder).arg(repository().join("c/calls.c")).arg(ARCHIVE);
    let compiled = command.arg("-o").arg(&program).output().expect("a compiler");
    assert!(compiled.status.success(), "{name}: {}", String::from_utf8_lossy(&compiled.stderr));
    program
}

fn ran(command: &mut Command) -> Output {
    command.output().expect("the program can be run")
}

/// All pairs of places in a list.
fn pairs(count: usize) -> impl Iterator<Item = (usize, usize)> {
    (0..count).flat_map(move |one| (one + 1..count).map(move |other| (one, other)))
}

/// The name at the end of `TYPE name` or `TYPE name[256]`, and the type.
fn parted(declaration: &str) -> (String, String) {
    let (before, after) = declaration.split_once('[').unwrap_or((declaration, ""));
    let at = before.rfind([' ', '*']).expect("a type before the name") + 1;
    (before[at..].to_string(), format!("{}[{after}", before[..at].trim()))
}

// ---- Fields

/// A struct of the header: its name, where its fields stand, and each as it is written.
struct Struct {
    name: String,
    place: Range<usize>,
    fields: Vec<String>,
}

fn structs(header: &str) -> Vec<Struct> {
    let opened = header.match_indices("typedef struct ").map(|(at, mark)| at + mark.len());
    let read = |from: usize| {
        let (name, _) = header[from..].split_once(" {").expect("a name");
        let start = from + name.len() + 2;
        let place = start..start + header[start..].find('}').expect("an end");
        let comments = header[place.clone()].split("/*").enumerate();
        let code = comments.map(|(at, part)| if at == 0 { part } else { part.split_once("*/").expect("an end").1 });
        let code: String = code.collect();
        let fields = code.split(';').map(|field| field.trim().to_string()).filter(|field| !field.is_empty()).collect();
        Struct { name: name.to_string(), place, fields }
    };
    opened.map(read).collect()
}

/// The header with the fields of a struct in another order.
fn reordered(header: &str, of: &Struct, fields: &[String]) -> String {
    let body: String = fields.iter().map(|field| format!("\n    {field};")).collect();
    format!("{}{body}\n{}", &header[..of.place.start], &header[of.place.end..])
}

/// Headers in which two fields of a struct have changed places: each with the next of its type, and in a struct whose
/// types all differ the first with the last.
fn fields_swapped(header: &str) -> Vec<(String, String)> {
    let mut all = vec![];
    for of in structs(header) {
        let kinds: Vec<String> = of.fields.iter().map(|field| parted(field).1).collect();
        let next = |one: usize| (one + 1..kinds.len()).find(|&other| kinds[one] == kinds[other]);
        let mut swaps: Vec<_> = (0..kinds.len()).filter_map(|one| Some((one, next(one)?))).collect();
        if swaps.is_empty() {
            swaps.push((0, of.fields.len() - 1));
        }
        for (one, other) in swaps {
            let mut fields = of.fields.clone();
            fields.swap(one, other);
            all.push((format!("{}-{one}-{other}", of.name), reordered(header, &of, &fields)));
        }
    }
    all
}

#[test]
fn two_fields_that_change_places_are_seen() {
    let header = header();
    let same = reordered(&header, &structs(&header)[0], &structs(&header)[0].fields);
    assert!(ran(&mut Command::new(program(&same, "same"))).status.success());
    let all = fields_swapped(&header);
    let of_each =
        structs(&header).iter().all(|of| all.iter().any(|(name, _)| name.starts_with(&format!("{}-", of.name))));
    assert!(of_each && all.len() >= 20, "{} headers are too few", all.len());
    let (left, unseen) = (Mutex::new(all), Mutex::new(vec![]));
    let next = || left.lock().expect("no thread panicked").pop();
    let work = || {
        while let Some((name, header)) = next() {
            if ran(&mut Command::new(program(&header, &name))).status.success() {
                unseen.lock().expect("no thread panicked").push(name);
            }
        }
    };
    thread::scope(|scope| (0..2).for_each(|_| drop(scope.spawn(work))));
    assert_eq!(unseen.into_inner().expect("no thread panicked"), Vec::<String>::new(), "these changed nothing");
}

// ---- Parameters

/// A parameter as the library has it: a pointer and the length after it are one.
struct Parameter {
    kind: String,
    names: Vec<String>,
}

/// What a call gives, and the list of its parameters, as the header has them.
fn signature(header: &str, name: &str) -> (String, String) {
    let found = [' ', '*'].into_iter().find_map(|before| header.find(&format!("{before}{name}(")));
    let from = found.expect("a declaration") + 1;
    let line = header[..from].rfind('\n').expect("a line") + 1;
    let list = &header[from + name.len() + 1..];
    let list = &list[..list.find(')').expect("an end")];
    (header[line..from].trim().to_string(), list.trim().to_string())
}

fn parameters(list: &str) -> Vec<Parameter> {
    let mut all: Vec<Parameter> = vec![];
    for (name, kind) in list.split(',').map(|declaration| parted(declaration.trim())) {
        let counts = kind == "size_t[" && (name.ends_with("length") || name.ends_with("count"));
        match all.last_mut() {
            Some(before) if before.kind.contains('*') && counts => before.names.push(name),
            _ => all.push(Parameter { kind, names: vec![name] }),
        }
    }
    all
}

/// The header with each call of the archive behind a function that hands its arguments on, two parameters of one type
/// in each other's place where SWAP is their number; and the names of those numbers, from 1.
fn parameters_swapped(header: &str) -> (String, Vec<String>) {
    let chosen = "#include <stdlib.h>\nstatic inline int swap_is(int number) {\n    const char *set = getenv(\"SWAP\");\n\
        \x20   return set != NULL && atoi(set) == number;\n}\n";
    let (mut text, mut swaps) =
        (header.replacen("#include <stdint.h>\n", &format!("#include <stdint.h>\n{chosen}"), 1), vec![]);
    for name in declared(header) {
        let (result, list) = signature(header, &name);
        if result.starts_with("static") {
            continue;
        }
        let parameters = parameters(&list);
        let given = |order: &[usize]| {
            let names: Vec<_> = order.iter().flat_map(|&at| parameters[at].names.iter().map(String::as_str)).collect();
            format!("return {name}({});", names.join(", "))
        };
        let order: Vec<usize> = (0..parameters.len()).collect();
        let mut body = String::new();
        for (one, other) in
            pairs(parameters.len()).filter(|&(one, other)| parameters[one].kind == parameters[other].kind)
        {
            let mut order = order.clone();
            order.swap(one, other);
            swaps.push(format!("{name}: {} and {}", parameters[one].names[0], parameters[other].names[0]));
            body += &format!("    if (swap_is({})) {}\n", swaps.len(), given(&order));
        }
        let wrapper = format!("\nstatic inline {result} swapped_{name}({list}) {{\n{body}    {}\n}}\n", given(&order));
        let from = text.find(&format!("\n{result} {name}(")).expect("a declaration");
        let end = from + text[from..].find(");").expect("an end") + 2;
        text.insert_str(end, &format!("{wrapper}#define {name} swapped_{name}\n"));
    }
    (text, swaps)
}

#[test]
fn two_parameters_that_change_places_are_seen() {
    let (header, swaps) = parameters_swapped(&header());
    assert!(swaps.len() >= 21, "{} are too few", swaps.len());
    let program = program(&header, "parameters");
    let fails = |number: usize| !ran(Command::new(&program).env("SWAP", number.to_string())).status.success();
    assert!(!fails(0), "nothing is swapped, and the program fails");
    let unseen: Vec<_> = (1..).zip(&swaps).filter(|(number, _)| !fails(*number)).map(|(_, name)| name).collect();
    assert!(unseen.is_empty(), "these changed nothing: {unseen:?}");
}

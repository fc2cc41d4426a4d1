//! How much stack the calls take, as `c/stack.c` measures it, and what the header says of it.

mod tools;

use std::fs;
use std::path::Path;
use std::process::Command;
use tools::{ARCHIVE, FOLDER, compiler, declared, header, repository, run};

/// What the header promises, in bytes.
const PROMISED: usize = 40_000;

/// What the program measured, by name, and the largest of a call.
fn measured() -> (Vec<(String, usize)>, usize) {
    let program = Path::new(FOLDER).join("stack");
    let source = repository().join("c/stack.c");
    run(compiler("cc", "-std=c11").args(["-O0", "-pthread"]).arg(source).arg(ARCHIVE).arg("-o").arg(&program));
    let said = run(&mut Command::new(program));
    let lines: Vec<Vec<&str>> = said.lines().map(|line| line.split_whitespace().collect()).collect();
    let number = |word: &str| word.parse::<usize>().ok();
    let all = lines.iter().filter_map(|line| Some((line.get(1)?.to_string(), number(line[0])?))).collect();
    let most = lines.iter().find(|line| line[0] == "most:").and_then(|line| number(line[1]));
    (all, most.expect("the program says the most"))
}

#[test]
fn less_than_the_header_says() {
    assert!(header().contains("less than 40,000 bytes of stack"));
    let (all, most) = measured();
    let of = |name: &str| all.iter().find(|(other, _)| other == name).expect("it is measured").1;
    // A frame of 40,000 bytes is seen as one, and a call of nothing as next to nothing.
    assert!((40_000..40_500).contains(&of("known")) && of("nothing") < 500, "{all:?}");
    assert!((10_000..PROMISED).contains(&most), "{most} bytes");
}

#[test]
fn every_call_is_measured() {
    let program = fs::read_to_string(repository().join("c/stack.c")).expect("the program is there");
    for name in declared(&header()) {
        // The header's own functions go over these.
        let below = ["legend_view", "legend_view_", "legend_record_"].iter().any(|start| name.starts_with(start));
        assert!(below || program.contains(&format!("{name}(")), "{name}");
    }
}

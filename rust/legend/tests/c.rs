//! The header and the C example: they compile with every warning an error, and say what the Rust side says.

mod tools;

use legend::ffi::*;
use std::collections::BTreeSet;
use std::fs;
use std::path::Path;
use std::process::Command;
use tools::{ARCHIVE, compiler, declared, header, repository, run, run_c, words_after};

#[path = "../examples/first.rs"]
#[allow(dead_code)]
mod first;

/// A struct's size and alignment, and each field's offset and size, as the Rust side has them.
struct Layout {
    name: &'static str,
    size: usize,
    align: usize,
    fields: Vec<(&'static str, usize, usize)>,
}

fn size_of_field<S, F>(_: impl Fn(&S) -> &F) -> usize {
    size_of::<F>()
}

macro_rules! layouts {
    ($($name:ident { $($field:ident),* })*) => {
        vec![$({
            // No field is left out.
            let _ = |all: $name| { let $name { $($field: _),* } = all; };
            Layout {
                name: stringify!($name),
                size: size_of::<$name>(),
                align: align_of::<$name>(),
                fields: vec![$((
                    stringify!($field),
                    std::mem::offset_of!($name, $field),
                    size_of_field(|all: &$name| &all.$field),
                )),*],
            }
        }),*]
    };
}

fn layouts() -> Vec<Layout> {
    layouts! {
        LegendAnswer { number, indexed, index }
        LegendColor { answer, color }
        LegendPalette { answer, colors, count }
        LegendRamp { answer, colors }
        LegendKey { key, whole }
        LegendSettings { nodata_color, low_color, high_color, has_low, has_high, zero_is_nodata }
        LegendLinear { start, end, cmap }
        LegendBand { start, end, color }
        LegendBanded { bands, count }
        LegendCategoric { keys, colors, count, lookup, lookup_count }
        LegendRecord { kind, settings, linear, banded, categoric }
        LegendView { kind, settings, start, end, count, lookup_count }
        LegendMade { answer, legend }
        LegendRange { start, end }
        LegendRanges { ranges, count }
        LegendValueRange { answer, start, end }
        LegendColorList { answer, colors }
        LegendWrittenCard { answer, length }
        LegendTitlePart { offset, length }
    }
}

/// A source that compiles only where the header's structs have these layouts, in C and in C++.
fn asserted(layouts: &[Layout], check: &str, align: &str) -> String {
    let mut source = String::from("#include \"legend.h\"\n");
    for Layout { name, size, align: alignment, fields } in layouts {
        source += &format!("{check}(sizeof({name}) == {size}, \"{name}\");\n");
        source += &format!("{check}({align}({name}) == {alignment}, \"{name}\");\n");
        for (field, offset, size) in fields {
            source += &format!("{check}(offsetof({name}, {field}) == {offset}, \"{name}.{field}\");\n");
            source += &format!("{check}(sizeof((({name} *)0)->{field}) == {size}, \"{name}.{field}\");\n");
        }
    }
    source
}

fn compile_layouts(name: &str, layouts: &[Layout]) -> [bool; 2] {
    [("cc", "-std=c11", "c", "_Static_assert", "_Alignof"), ("c++", "-std=c++17", "cpp", "static_assert", "alignof")]
        .map(|(program, standard, suffix, check, align)| {
            let file = format!("{name}.{suffix}");
            let source = asserted(layouts, check, align);
            fs::write(Path::new(env!("CARGO_TARGET_TMPDIR")).join(&file), source).expect("the folder is writable");
            let compiled = compiler(program, standard).args(["-fsyntax-only", &file]).output().expect("a compiler");
            compiled.status.success()
        })
}

#[test]
fn layouts_are_the_headers() {
    assert_eq!(compile_layouts("layouts", &layouts()), [true, true]);
}

#[test]
fn another_layout_is_seen() {
    for at in 0..layouts().len() {
        let mut other = layouts();
        other[at].fields[1].1 += 1;
        assert_eq!(compile_layouts(&format!("other{at}"), &other), [false, false]);
    }
}

#[test]
fn every_struct_has_a_layout_here() {
    let declared: BTreeSet<_> = words_after(&header(), "typedef struct ");
    assert_eq!(declared, layouts().iter().map(|layout| layout.name.to_string()).collect());
}

#[test]
fn header_archive_and_crate_have_the_same_calls() {
    let symbols = run(Command::new("nm").args(["--defined-only", "--extern-only", ARCHIVE]));
    let exported = words_after(&symbols, " T ");
    assert!(!exported.is_empty());
    // The header's own functions are written in it; the others are the archive's.
    let inline: BTreeSet<String> =
        header().lines().filter(|line| line.starts_with("static inline ")).flat_map(declared).collect();
    assert_eq!(inline.len(), 14);
    assert_eq!(declared(&header()), exported.union(&inline).cloned().collect());
    let crate_source =
        fs::read_to_string(Path::new(env!("CARGO_MANIFEST_DIR")).join("src/ffi.rs")).expect("the source");
    assert_eq!(declared(&crate_source), exported);
}

/// Nothing that can be written is in the archive, and it calls nothing but copying and filling: it has no state, and
/// allocates nothing.
#[test]
fn the_archive_has_no_state() {
    let symbols = run(Command::new("nm").arg(ARCHIVE));
    let kinds: BTreeSet<&str> = symbols.lines().filter_map(|line| line.split_whitespace().rev().nth(1)).collect();
    assert_eq!(kinds, BTreeSet::from(["T", "U", "r", "t"]));
    let called = words_after(&symbols, " U ");
    assert!(called.iter().all(|name| ["memcpy", "memmove", "memset"].contains(&name.as_str())), "{called:?}");
}

#[test]
fn refusals_have_the_headers_numbers() {
    use legend::Kind;
    use legend::Refusal::*;
    let all = [
        EmptyText,
        NotHexColor,
        NotHexByte { pair: 0 },
        TooFewColors,
        TooManyColors,
        NoSuchPalette,
        StartAboveEnd,
        TooManyBands,
        ColorCountDiffers,
        EmptyRange { range: 0 },
        TooManyCategories,
        RangeTooWide,
        OutputLengthDiffers,
        NoSuchLaneCount,
        ScratchTooShort,
        CountAboveCapacity,
        KeyOutOfRange { key: 0 },
        CardUnknown,
        CardMalformed,
        CardTooLong,
    ];
    for (number, why) in (1..).zip(all) {
        assert_eq!(why.number(), number);
        let written = words_after(&header(), &format!("{} = ", constant(why)));
        assert_eq!(written, BTreeSet::from([number.to_string()]), "{why:?}");
    }
    for (name, number) in [("LEGEND_BAD_FLAG", BAD_FLAG), ("LEGEND_BAD_KIND", BAD_KIND)] {
        assert_eq!(words_after(&header(), &format!("{name} = ")), BTreeSet::from([number.to_string()]));
    }
    let capacity = words_after(&header(), "LEGEND_CARD_CAPACITY = ");
    assert_eq!(capacity, BTreeSet::from([legend::Legend::CARD_CAPACITY.to_string()]));
    for (name, kind) in
        [("LEGEND_LINEAR", Kind::Linear), ("LEGEND_BANDED", Kind::Banded), ("LEGEND_CATEGORIC", Kind::Categoric)]
    {
        assert_eq!(words_after(&header(), &format!("{name} = ")), BTreeSet::from([(kind as u32).to_string()]));
    }
}

/// The header's name of a refusal: LEGEND_NOT_HEX_BYTE for `NotHexByte`.
fn constant(why: legend::Refusal) -> String {
    let name = format!("{why:?}");
    let words = name.chars().take_while(|c| c.is_alphabetic());
    let upper = words.flat_map(|c| c.is_uppercase().then_some('_').into_iter().chain([c.to_ascii_uppercase()]));
    format!("LEGEND{}", upper.collect::<String>())
}

#[test]
fn header_alone_compiles() {
    let header = repository().join("include/legend.h");
    run(compiler("cc", "-std=c11").args(["-fsyntax-only", "-x", "c"]).arg(&header));
    run(compiler("c++", "-std=c++17").args(["-fsyntax-only", "-x", "c++"]).arg(&header));
}

#[test]
fn the_c_example_prints_what_the_rust_example_does() {
    let lines = first::lines().expect("nothing that the example counts on is refused");
    let printed = run_c(&repository().join("c/first.c"), "first");
    assert_eq!(printed.lines().collect::<Vec<_>>(), lines);
}

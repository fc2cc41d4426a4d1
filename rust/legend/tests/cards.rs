//! The cards of docs/CARD.md: the dumps there are what the library writes, and what it reads.

mod tools;

use legend::{Color, Legend, Ramp, Settings};
use std::fs;
use tools::repository;

const BLUE: Color = Color::rgb(0, 0, 255);
const RED: Color = Color::rgb(255, 0, 0);

/// The legends of the page, each under its title.
fn examples() -> Vec<(&'static str, Legend)> {
    let halves = Ramp::from_entries(std::array::from_fn(|entry| if entry < 128 { BLUE } else { RED }));
    let linear = Legend::linear(&halves, -10.0..=30.0, Settings::default());
    let settings = Settings { high_color: Some(RED), zero_is_nodata: true, ..Settings::default() };
    let banded = Legend::manual_ranges(&[Color::rgba(0, 0, 255, 128), BLUE], &[0.5..2.0, 2.0..f32::INFINITY], settings);
    let categoric = Legend::categories_for_values(&[BLUE, RED], &[-1, 300], Settings::default());
    vec![
        ("temperature", linear.expect("not refused")),
        ("rain", banded.expect("not refused")),
        ("", categoric.expect("not refused")),
    ]
}

/// Bytes as `hexdump -C` prints them: a line that repeats the one before is left out, and `*` stands for all such.
fn dump(bytes: &[u8]) -> String {
    let mut text = String::new();
    let mut before: &[u8] = &[];
    for (at, line) in bytes.chunks(16).enumerate() {
        if line == before {
            if !text.ends_with("*\n") {
                text += "*\n";
            }
            continue;
        }
        before = line;
        let hex: String = (0..16)
            .map(|at| {
                let gap = if at == 8 { " " } else { "" };
                gap.to_string() + &line.get(at).map_or("   ".to_string(), |byte| format!(" {byte:02x}"))
            })
            .collect();
        let shown: String =
            line.iter().map(|&byte| if (b' '..=b'~').contains(&byte) { char::from(byte) } else { '.' }).collect();
        text += &format!("{:08x} {hex}  |{shown}|\n", 16 * at);
    }
    text + &format!("{:08x}\n", bytes.len())
}

/// The dumps of the page, in its order.
fn written(page: &str) -> Vec<String> {
    let blocks = page.split("```").skip(1).step_by(2);
    blocks.filter_map(|block| block.strip_prefix("text\n0000")).map(|block| format!("0000{block}")).collect()
}

#[test]
fn the_page_has_the_cards() {
    let page = fs::read_to_string(repository().join("docs/CARD.md")).expect("the page is there");
    let dumps =
        examples().into_iter().map(|(title, legend)| dump(&legend.to_card(title.as_bytes()).expect("not refused")));
    assert_eq!(written(&page), dumps.collect::<Vec<_>>());
}

#[test]
fn a_byte_that_differs_is_seen() {
    let (title, legend) = examples().remove(1);
    let mut card = legend.to_card(title.as_bytes()).expect("not refused");
    let dumped = dump(&card);
    for at in 0..card.len() {
        card[at] ^= 1;
        assert_ne!(dump(&card), dumped, "byte {at}");
        card[at] ^= 1;
    }
    assert_eq!(written(&format!("```text\n{dumped}```")), [dumped]);
}

#[test]
fn they_are_read_back() {
    for (title, legend) in examples() {
        let card = legend.to_card(title.as_bytes()).expect("not refused");
        assert_eq!(Legend::title_of_card(&card), title.as_bytes());
        assert_eq!(Legend::from_card(&card), Ok(legend));
    }
}

/// The longest card has 256 categories under 255 bytes of title, and fills the capacity.
#[test]
fn the_longest_card_fills_the_capacity() {
    let keys: Vec<i64> = (0..256).collect();
    let legend = Legend::categories_for_values(&[BLUE; 256], &keys, Settings::default()).expect("not refused");
    let card = legend.to_card(&[b't'; 255]).expect("not refused");
    assert_eq!(card.len(), Legend::CARD_CAPACITY);
    assert_eq!(Legend::from_card(&card), Ok(legend));
}

/// A title is borrowed from its card: it lives as long as that does.
#[test]
fn a_title_is_a_part_of_its_card() {
    let card = examples()[1].1.to_card(b"rain").expect("not refused");
    let title = {
        let lent = &card[..];
        Legend::title_of_card(lent)
    };
    assert_eq!(title.as_ptr(), card[7..].as_ptr());
    assert_eq!(title, b"rain");
}

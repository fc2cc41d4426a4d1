//! Rows of single calls: palettes, hex texts, lookups in ramps, and samples as whole numbers.

use crate::random::Random;
use crate::row::*;
use crate::rules;
use oracle::{Answer, Colors, Ramp};

/// The colours of a palette.
pub fn palette(number: usize) -> Row {
    let mut row = Row::new(Kind::Palette);
    let colors = oracle::palette(number);
    row.set(SOURCE, number as u32);
    row.set(RANGE, colors.len() as u32);
    row.set_all(PLAIN, colors);
    row
}

/// The answer's number, with the index where its row of the table has one, and what was made if something was.
pub fn answered<T>(row: &mut Row, answer: Answer<T>, index: Option<usize>) -> Option<T> {
    let number = answer.as_ref().err().map_or(0, |refused| refused.number());
    row.set(ANSWER, number);
    if rules::INDEXED.contains(&number) {
        row.set(INDEX, index.expect("the rule finds what the reference refused") as u32 + 1);
    }
    answer.ok()
}

/// A text of 0 to 12 bytes, a byte a word, most of them near to a colour; its length stands as the count.
pub fn hex(random: &mut Random) -> Row {
    let mut row = Row::new(Kind::Hex);
    let length = if random.once_in(4) { random.below(13) } else { random.one_of(&[7, 9]) };
    let wrong = if random.once_in(2) { 16 } else { 128 };
    let mut byte = |at| match random.below(wrong) {
        0 => random.below(128) as u8,
        1 => random.one_of(b"+-# /:@G`gxX."),
        _ if at == 0 => b'#',
        _ => random.one_of(b"0123456789ABCDEFabcdef"),
    };
    let text: Vec<u8> = (0..length).map(&mut byte).collect();
    row.set(COUNT, length as u32);
    row.set_all(NUMBERS, text.iter().map(|&byte| byte.into()));
    let answer = oracle::hex(std::str::from_utf8(&text).expect("ASCII"));
    let index = rules::bad_pair(&text);
    if let Some(word) = answered(&mut row, answer, index) {
        row.set(RANGE, word);
    }
    row
}

/// The ramp, and fractions looked up in it plainly and in sixteen lanes.
pub fn lookup(random: &mut Random) -> Row {
    let mut row = Row::new(Kind::Lookup);
    let from = colors(&mut row, random, 2, true);
    let fractions: [f32; LIST] = std::array::from_fn(|_| fraction(random));
    row.set_all(SAMPLES, fractions.map(bits));
    if let Some(ramp) = answered(&mut row, Ramp::create(&from), None) {
        row.set_all(COLOR_LIST, ramp.entries());
        let mut lanes = [0; LIST];
        ramp.get_color_simd(LIST, &fractions, &mut lanes);
        row.set_all(PLAIN, fractions.map(|fraction| ramp.get_color(fraction)));
        row.set_all(LANES[2].1, lanes);
    }
    row
}

/// A fraction: any, one near to where an entry begins, or a special one.
fn fraction(random: &mut Random) -> f32 {
    let near = |random: &mut Random, x: f32| f32::from_bits(x.to_bits().saturating_add(random.below(3) as u32));
    match random.below(8) {
        0 => random.special(),
        1 => f32::from_bits(0x3b00_8080),
        2 => random.between(-0.5, 1.5),
        3 => random.one_of(&[f32::from_bits(0x3f7f_ffff), f32::from_bits(0x3f80_0001), 1.0, 0.0]),
        4 | 5 => {
            let x = (random.below(255) as f32 + 0.5) / 255.0;
            near(random, f32::from_bits(x.to_bits() - 1))
        }
        _ => random.unit(),
    }
}

/// Samples as whole numbers: the low words, the high words, and whether there is one.
pub fn truncated(random: &mut Random) -> Row {
    let mut row = Row::new(Kind::Truncated);
    let samples: [f32; LIST] = std::array::from_fn(|_| match random.below(4) {
        0 => random.special(),
        1 => f32::from_bits(random.word() as u32),
        2 => random.between(-1e5, 1e5),
        _ => (random.word() as i64 >> random.below(64)) as f32,
    });
    let keys = samples.map(oracle::to_i64);
    row.set_all(SAMPLES, samples.map(bits));
    row.set_all(PLAIN, keys.map(|key| key.unwrap_or(0) as u32));
    row.set_all(LANES[0].1, keys.map(|key| (key.unwrap_or(0) >> 32) as u32));
    row.set_all(LANES[1].1, keys.map(|key| key.is_some().into()));
    row
}

/// The colours of a ramp or a legend: a palette, or a list of `count` colours or, now and then, of another number. A list
/// that is spread over a ramp is opaque: alpha is spread otherwise (docs/DIFFERENCES.md).
pub fn colors(row: &mut Row, random: &mut Random, count: usize, spread: bool) -> Colors {
    if count > LIST || random.once_in(2) {
        let number = random.below(32) as usize;
        row.set(SOURCE, number as u32);
        return Colors::Preset(number, false);
    }
    let wrong = random.once_in(if spread { 2 } else { 8 });
    let count = if wrong { random.below(LIST as u64 + 1) as usize } else { count };
    let opaque = if spread || random.once_in(2) { 0xff00_0000 } else { 0 };
    let list: Vec<u32> = (0..count).map(|_| random.color() | opaque).collect();
    row.set(SOURCE, 32);
    row.set(LIST_COUNT, count as u32);
    row.set_all(COLORS, list.iter().copied());
    Colors::List(list)
}

//! Cards: written of any record, and read of any bytes, most of them near to a card. The reference has none, so each
//! answer is compared with docs/RULES.md, as [`crate::cards`] reads it.

use super::answer_words;
use super::legends::{color_word, fewer, float_word};
use super::stored::{Stored, any, refused_words};
use crate::cards;
use crate::engine::{Inputs, Subject, bits};
use crate::random::Random;
use legend::ffi::{self, LegendRecord};
use legend::{Color, Legend};

/// A record as words, all of it; one NaN is another.
fn record_words(legend: &LegendRecord, words: &mut Vec<u64>) {
    let LegendRecord { kind, settings, linear, banded, categoric } = legend;
    words.push((*kind).into());
    words.extend([&settings.nodata_color, &settings.low_color, &settings.high_color].map(color_word));
    words.extend([settings.has_low, settings.has_high, settings.zero_is_nodata].map(u64::from));
    words.extend([linear.start, linear.end].map(float_word));
    words.extend(linear.cmap.iter().map(color_word));
    for band in &banded.bands {
        words.extend([float_word(band.start), float_word(band.end), color_word(&band.color)]);
    }
    words.extend([banded.count, categoric.count, categoric.lookup_count].map(|count| count as u64));
    words.extend(categoric.keys.iter().map(|&key| key as u64));
    words.extend(categoric.colors.iter().chain(&categoric.lookup).map(color_word));
}

// ---- Writing

/// A record, a title, and how many bytes the buffer has.
#[derive(Debug, Clone)]
pub struct Writing {
    pub stored: Stored,
    pub title: Vec<u8>,
    /// Keys as a builder makes them: in order, each once, none beyond the limit, with their table.
    pub built: bool,
    /// Keys from 0 to 512, so that there is a table.
    pub small: bool,
    pub room: usize,
}

impl Writing {
    pub fn record(&self) -> LegendRecord {
        let mut made = self.stored.record();
        let count = made.categoric.count;
        if self.built && count <= 256 {
            if self.small {
                made.categoric.keys[..count].iter_mut().for_each(|key| *key = key.rem_euclid(513));
            }
            made.categoric.keys[..count].sort_unstable();
            let keys = made.categoric.keys;
            let mut unique = keys[..count].to_vec();
            unique.dedup();
            unique.retain(|key| (-16_777_216..=16_777_216).contains(key));
            made.categoric.count = unique.len();
            made.categoric.keys[..unique.len()].copy_from_slice(&unique);
            let words = cards::table(&unique, &made.categoric.colors[..unique.len()]);
            made.categoric.lookup[..words.len()].copy_from_slice(&words);
            made.categoric.lookup_count = words.len();
        }
        made
    }

    fn buffer(&self) -> Vec<u8> {
        (0..self.room).map(|at| (at % 251) as u8).collect()
    }
}

pub struct Writer;

impl Subject for Writer {
    type Input = Writing;

    fn ours(&self, input: &Writing, words: &mut Vec<u64>) {
        let mut buffer = input.buffer();
        let written = ffi::write_card(&input.record(), &input.title, &mut buffer);
        words.extend(answer_words(written.answer));
        words.push(written.length as u64);
        words.extend(buffer.into_iter().map(u64::from));
    }

    fn theirs(&self, input: &Writing, words: &mut Vec<u64>) {
        let mut buffer = input.buffer();
        let written = cards::write(&input.record(), &input.title, &mut buffer);
        words.extend(refused_words(&written));
        words.push(written.unwrap_or(0) as u64);
        words.extend(buffer.into_iter().map(u64::from));
    }

    fn smaller(&self, input: &Writing) -> Vec<Writing> {
        let titles = fewer(&input.title).into_iter().map(|title| Writing { title, ..input.clone() });
        let stored = input.stored.smaller().into_iter().map(|stored| Writing { stored, ..input.clone() });
        titles.chain(stored).collect()
    }

    fn wanted(&self) -> &'static [&'static str] {
        &[
            "a linear card",
            "a banded card",
            "a categoric card with a table",
            "a categoric card without a table",
            "16",
            "7",
            "20, by the title",
            "20, by one byte of the buffer",
            "100",
            "101",
            "a buffer that the card fills",
            "a title of 255 bytes",
            "an empty title",
            "a NaN bound",
        ]
    }

    fn has(&self, input: &Writing) -> u64 {
        let record = input.record();
        let mut long = vec![0; Legend::CARD_CAPACITY];
        let fits = cards::write(&record, &input.title, &mut long);
        let done = cards::write(&record, &input.title, &mut input.buffer());
        let is = |kind| done.is_ok() && record.kind == kind;
        let refused = |number| done.is_err_and(|refused| refused.number == number);
        let nan = match record.kind {
            0 => record.linear.start.is_nan() || record.linear.end.is_nan(),
            1 => record
                .banded
                .bands
                .iter()
                .take(record.banded.count)
                .any(|band| band.start.is_nan() || band.end.is_nan()),
            _ => false,
        };
        bits([
            is(0),
            is(1),
            is(2) && record.categoric.lookup_count > 0,
            is(2) && record.categoric.lookup_count == 0 && record.categoric.count > 0,
            refused(16),
            refused(7),
            refused(20) && input.title.len() > 255,
            refused(20) && fits == Ok(input.room + 1),
            refused(100),
            refused(101),
            done == Ok(input.room),
            done.is_ok() && input.title.len() == 255,
            done.is_ok() && input.title.is_empty(),
            done.is_ok() && nan,
        ])
    }
}

fn title(random: &mut Random) -> Vec<u8> {
    let length = match random.below(4) {
        0 => 0,
        1 => random.one_of(&[254, 255, 256, 257]),
        _ => random.below(20),
    };
    (0..length).map(|_| random.word() as u8).collect()
}

/// A record, often one that a builder makes, with some bounds that are NaN.
fn writing(random: &mut Random) -> Writing {
    let mut stored = any(random);
    if random.once_in(8) {
        let nan = f32::from_bits(random.one_of(&[0x7fc0_0000, 0xffc0_0001, 0x7f80_0001, 0x7fff_ffff]));
        stored.bounds.1 = nan;
        stored.bands.iter_mut().take(2).for_each(|band| band.0 = nan);
    }
    let mut made =
        Writing { stored, title: title(random), built: !random.once_in(4), small: random.once_in(2), room: 0 };
    let mut long = vec![0; Legend::CARD_CAPACITY];
    let fits = cards::write(&made.record(), &made.title, &mut long).unwrap_or(0);
    made.room = match random.below(4) {
        0 => random.below(Legend::CARD_CAPACITY as u64 + 2) as usize,
        1 => (fits + random.below(3) as usize).saturating_sub(1),
        _ => fits + random.below(40) as usize,
    };
    made
}

pub fn random_writings(seed: u64, count: u64) -> Inputs<'static, Writing> {
    Inputs::new(count, move |number| writing(&mut Random::new(seed, number)))
}

// ---- Reading

pub struct Reader;

impl Subject for Reader {
    type Input = Vec<u8>;

    fn ours(&self, card: &Vec<u8>, words: &mut Vec<u64>) {
        let read = ffi::read_card(card);
        words.extend(answer_words(read.answer));
        record_words(&read.legend, words);
        let title = Legend::title_of_card(card);
        words.push(title.len() as u64);
        words.extend(title.iter().map(|&byte| u64::from(byte)));
        // A title is a part of the card's own bytes.
        let place = title.as_ptr() as usize - card.as_ptr() as usize;
        assert!(title.is_empty() || place == 7, "the title starts at byte {place}");
        // What is accepted is written as the same bytes.
        if let Ok(legend) = Legend::from_card(card) {
            assert_eq!(legend.to_card(title).as_ref(), Ok(card), "another card of what was read");
        }
    }

    fn theirs(&self, card: &Vec<u8>, words: &mut Vec<u64>) {
        let read = cards::read(card);
        words.extend(refused_words(&read));
        let (record, title) = read.unwrap_or((LegendRecord::EMPTY, &[]));
        record_words(&record, words);
        words.push(title.len() as u64);
        words.extend(title.iter().map(|&byte| u64::from(byte)));
    }

    fn smaller(&self, card: &Vec<u8>) -> Vec<Vec<u8>> {
        fewer(card)
    }

    fn wanted(&self) -> &'static [&'static str] {
        &[
            "a linear card",
            "a banded card",
            "a categoric card",
            "18",
            "19",
            "7",
            "a title of 255 bytes",
            "a card of 5 bytes",
            "6 bytes",
        ]
    }

    fn has(&self, card: &Vec<u8>) -> u64 {
        let read = cards::read(card);
        let is = |kind| read.as_ref().is_ok_and(|(legend, _)| legend.kind == kind);
        let refused = |number| read.as_ref().is_err_and(|refused| refused.number == number);
        bits([
            is(0),
            is(1),
            is(2),
            refused(18),
            refused(19),
            refused(7),
            read.as_ref().is_ok_and(|(_, title)| title.len() == 255),
            refused(18) && card.len() == 5,
            refused(19) && card.len() == 6,
        ])
    }
}

/// A card, or bytes near to one: a byte or two changed, cut off, one more, two bounds changed about; or any bytes.
fn near_a_card(random: &mut Random) -> Vec<u8> {
    let written = writing(random);
    let mut buffer = vec![0; Legend::CARD_CAPACITY];
    let title = &written.title[..written.title.len().min(255)];
    let Ok(length) = cards::write(&written.record(), title, &mut buffer) else {
        return (0..random.below(40)).map(|_| random.byte()).collect();
    };
    let mut card = buffer[..length].to_vec();
    let place = |random: &mut Random, card: &[u8]| match random.below(3) {
        0 => random.below(card.len().min(30) as u64) as usize,
        1 => (22 + title.len() + random.below(24) as usize).min(card.len() - 1),
        _ => random.below(card.len() as u64) as usize,
    };
    match random.below(8) {
        0 => (),
        1 => card.truncate(random.below(card.len() as u64) as usize),
        2 => card.truncate(random.below(8) as usize),
        3 => card.push(random.byte()),
        4 if card.len() > 30 + title.len() => {
            let at = 22 + title.len();
            let (start, end) = card[at..at + 8].split_at_mut(4);
            start.swap_with_slice(end);
        }
        5 => {
            let at = place(random, &card);
            card[at] ^= 1 << random.below(8);
        }
        changes => {
            for _ in 5..changes {
                let at = place(random, &card);
                card[at] = random.byte();
            }
        }
    }
    card
}

pub fn random_readings(seed: u64, count: u64) -> Inputs<'static, Vec<u8>> {
    Inputs::new(count, move |number| near_a_card(&mut Random::new(seed, number)))
}

/// Colours that all differ, for the tests that change a byte of a card.
pub fn distinct(count: usize) -> Vec<Color> {
    (1..=count as u32).map(|number| Color::from_word(number.wrapping_mul(0x9e37_79b1))).collect()
}

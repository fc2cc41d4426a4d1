//! Palettes, and the ramps that are made of them.

use super::{DONE, answer_words};
use crate::engine::{Inputs, Subject};
use legend::{Color, Palette, Ramp, ffi};

pub struct Palettes;

impl Subject for Palettes {
    type Input = usize;

    fn ours(&self, &number: &usize, words: &mut Vec<u64>) {
        let asked = ffi::palette(number);
        words.extend(answer_words(asked.answer));
        words.push(asked.count as u64);
        words.extend(asked.colors.map(|color| u64::from(color.word())));
        let wrapped: Vec<Color> = Palette::ALL[number].colors().collect();
        assert_eq!(wrapped, asked.colors[..asked.count]);
    }

    fn theirs(&self, &number: &usize, words: &mut Vec<u64>) {
        let mut colors = oracle::palette(number);
        words.extend(DONE);
        words.push(colors.len() as u64);
        colors.resize(12, 0);
        words.extend(colors.into_iter().map(u64::from));
    }

    fn smaller(&self, &number: &usize) -> Vec<usize> {
        (0..number).collect()
    }
}

pub struct PaletteRamps;

impl Subject for PaletteRamps {
    type Input = usize;

    fn ours(&self, &number: &usize, words: &mut Vec<u64>) {
        let made = ffi::ramp_from_palette(number);
        words.extend(answer_words(made.answer));
        words.extend(made.colors.map(|color| u64::from(color.word())));
        assert_eq!(Ramp::from_palette(Palette::ALL[number]).colors(), &made.colors);
    }

    fn theirs(&self, &number: &usize, words: &mut Vec<u64>) {
        let ramp = oracle::Ramp::create(&oracle::Colors::Preset(number, false)).expect("presets are not refused");
        words.extend(DONE);
        words.extend(ramp.entries().map(u64::from));
    }

    fn smaller(&self, &number: &usize) -> Vec<usize> {
        (0..number).collect()
    }
}

/// Every palette's number.
pub fn all() -> Inputs<'static, usize> {
    Inputs::new(32, |number| number as usize)
}

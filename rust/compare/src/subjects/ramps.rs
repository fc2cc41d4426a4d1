//! Ramps from lists of up to 256 colours.
//!
//! The reference makes every entry opaque, and the library spreads alpha as it spreads the other channels (an intended
//! difference). So where a list is not opaque its alpha is compared with what the reference makes of the same numbers in
//! red.

use super::{DONE, answer_words, refusal_words};
use crate::engine::{Inputs, Subject};
use crate::random::Random;
use legend::{Color, Ramp, ffi};

pub struct ListRamps;

const OPAQUE: u32 = 0xff00_0000;

impl Subject for ListRamps {
    type Input = Vec<u32>;

    fn ours(&self, list: &Vec<u32>, words: &mut Vec<u64>) {
        let colors: Vec<Color> = list.iter().map(|&word| Color::from_word(word)).collect();
        let made = ffi::ramp_from_list(&colors);
        words.extend(answer_words(made.answer));
        words.extend(made.colors.map(|color| u64::from(color.word())));
        match Ramp::from_colors(&colors) {
            Ok(ramp) => assert_eq!((DONE, ramp.colors()), (answer_words(made.answer), &made.colors)),
            Err(why) => assert_eq!(refusal_words(why), answer_words(made.answer)),
        }
    }

    fn theirs(&self, list: &Vec<u32>, words: &mut Vec<u64>) {
        match oracle::Ramp::from_list(list) {
            Err(refused) => {
                words.extend([refused.number().into(), 0, 0]);
                words.extend([0; 256]);
            }
            Ok(ramp) => {
                words.extend(DONE);
                words.extend(with_alpha(list, ramp.entries()).map(u64::from));
            }
        }
    }

    fn smaller(&self, list: &Vec<u32>) -> Vec<Vec<u32>> {
        let shorter = (0..list.len()).map(|at| [&list[..at], &list[at + 1..]].concat());
        let plainer = |at: usize| {
            let other = move |word: u32| [&list[..at], &[word], &list[at + 1..]].concat();
            [0, OPAQUE].into_iter().filter(move |&word| word < list[at]).map(other)
        };
        shorter.chain((0..list.len()).flat_map(plainer)).collect()
    }
}

/// The entries with the alpha that the library's rule gives.
fn with_alpha(list: &[u32], entries: [u32; 256]) -> [u32; 256] {
    if list.iter().all(|word| *word >= OPAQUE) {
        return entries;
    }
    let alpha_in_red: Vec<u32> = list.iter().map(|word| word >> 24).collect();
    let reds = oracle::Ramp::from_list(&alpha_in_red).expect("the list was taken before").entries();
    std::array::from_fn(|i| entries[i] & !OPAQUE | (reds[i] & 255) << 24)
}

/// How many lists `every_pair` has.
pub const PAIRS: u64 = 255 * (1u64 << 16).div_ceil(3);

/// Two colours in turn, for 2 to 256 places, so that over all lists every pair of channel values stands at each step of
/// each count. Each list has three pairs, one a channel. Every `step`th list.
pub fn every_pair(step: u64) -> Inputs<'static, Vec<u32>> {
    Inputs::new(PAIRS.div_ceil(step), move |number| {
        let number = number * step;
        let (count, block) = (2 + number % 255, number / 255);
        let pair = |channel: u64| (3 * block + channel) as u32 & 0xffff;
        let (even, odd) = (|channel| pair(channel) & 255, |channel| pair(channel) >> 8);
        let word = |of: &dyn Fn(u64) -> u32| of(0) | of(1) << 8 | of(2) << 16 | OPAQUE;
        let colors = [word(&even), word(&odd)];
        (0..count as usize).map(|i| colors[i % 2]).collect()
    })
}

/// Random lists of 0 to 256 colours, each length as often.
pub fn random(seed: u64, count: u64) -> Inputs<'static, Vec<u32>> {
    Inputs::new(count, move |number| {
        let mut random = Random::new(seed, number);
        let opaque = random.once_in(2);
        let mut last = 0;
        let color = |_| {
            // One in eight stays the same: a step between equal colours.
            if !random.once_in(8) {
                let channels = std::array::from_fn(|_| random.byte());
                last = u32::from_le_bytes(channels) | if opaque { OPAQUE } else { 0 };
            }
            last
        };
        (0..number % 257).map(color).collect()
    })
}

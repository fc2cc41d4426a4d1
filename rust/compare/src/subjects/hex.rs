//! Colours from text. The texts are ASCII: beside that the reference may panic.

use super::{DONE, answer_words, refusal_words};
use crate::engine::{Inputs, Subject};
use crate::random::Random;
use legend::{Color, ffi};

pub struct Hex;

impl Subject for Hex {
    type Input = String;

    fn ours(&self, text: &String, words: &mut Vec<u64>) {
        let read = ffi::hex(text.as_bytes());
        words.extend(answer_words(read.answer));
        words.push(read.color.word().into());
        match Color::from_hex(text) {
            Ok(color) => assert_eq!((DONE, color), (answer_words(read.answer), read.color), "{text:?}"),
            Err(why) => assert_eq!(refusal_words(why), answer_words(read.answer), "{text:?}"),
        }
    }

    fn theirs(&self, text: &String, words: &mut Vec<u64>) {
        match oracle::hex(text) {
            Ok(color) => {
                words.extend(DONE);
                words.push(color.into());
            }
            Err(refused) => {
                let index = refused.0.strip_prefix("Invalid hex color value: ").map(|pair| pair_in(text, pair));
                words.extend([refused.number().into(), index.is_some().into(), index.unwrap_or(0), 0]);
            }
        }
    }

    fn smaller(&self, text: &String) -> Vec<String> {
        let shorter = (0..text.len()).map(|at| text[..at].to_string() + &text[at + 1..]);
        let plain = |at| if at == 0 { "#" } else { "0" };
        let other =
            |at: usize| (&text[at..=at] != plain(at)).then(|| text[..at].to_string() + plain(at) + &text[at + 1..]);
        shorter.chain((0..text.len()).filter_map(other)).collect()
    }
}

/// The number of the first pair that is this one: the message of the reference has the pair, and not its number.
fn pair_in(text: &str, pair: &str) -> u64 {
    (0..4).find(|at| &text[1 + 2 * at..3 + 2 * at] == pair).expect("the refused pair is in the text") as u64
}

/// Every pair of ASCII bytes at each place of both forms.
pub fn all_pairs() -> Inputs<'static, String> {
    Inputs::new(7 << 14, |number| {
        let (form, high, low) = ((number >> 14) as usize, (number >> 7 & 127) as u8, (number & 127) as u8);
        let (length, place) = if form < 3 { (7, form) } else { (9, form - 3) };
        let mut text: Vec<u8> = b"#12345678"[..length].to_vec();
        (text[1 + 2 * place], text[2 + 2 * place]) = (high, low);
        String::from_utf8(text).expect("ASCII")
    })
}

/// Random texts of 0 to 12 bytes, most of them near to a colour.
pub fn random(seed: u64, count: u64) -> Inputs<'static, String> {
    Inputs::new(count, move |number| {
        let mut random = Random::new(seed, number);
        let length = if random.once_in(2) { random.one_of(&[7, 9]) } else { random.below(13) };
        let mut byte = |at| match random.below(64) {
            0 => random.below(128) as u8,
            1 => random.one_of(b"+-# /:@G`gxX."),
            2.. if at == 0 => b'#',
            _ => random.one_of(b"0123456789ABCDEFabcdef"),
        };
        let text: Vec<u8> = (0..length).map(&mut byte).collect();
        String::from_utf8(text).expect("ASCII")
    })
}

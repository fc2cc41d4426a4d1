//! Builders: every field of the record, or the refusal beside the empty record.

use super::{Asked, Kinds, ask, record, record_words, said, smaller_asked};
use crate::engine::{Inputs, Subject};
use crate::random::Random;
use crate::subjects::refusal_words;
use legend::ffi::LegendRecord;

pub struct Builders;

impl Subject for Builders {
    type Input = Asked;

    fn cases(&self, asked: &Asked) -> u64 {
        asked.added().is_none().into()
    }

    fn ours(&self, asked: &Asked, words: &mut Vec<u64>) {
        let made = said(asked.ours().map_err(refusal_words), words);
        record_words(made.as_ref().map_or(&LegendRecord::EMPTY, |legend| legend.record()), words);
    }

    fn theirs(&self, asked: &Asked, words: &mut Vec<u64>) {
        let made = said(asked.theirs(), words);
        record_words(&made.map_or(LegendRecord::EMPTY, |legend| record(&legend, &asked.config)), words);
    }

    fn smaller(&self, asked: &Asked) -> Vec<Asked> {
        smaller_asked(asked)
    }
}

/// Legends of a kind at random.
pub fn random(kinds: Kinds, seed: u64, count: u64) -> Inputs<'static, Asked> {
    Inputs::new(count, move |number| ask(&mut Random::new(seed, number), kinds))
}

//! The whole range of a legend's values, and its list of colours.

use super::samples::far_keys;
use super::{Asked, Job, Refused, first_outside, float_word, said, smaller_asked};
use crate::engine::{Subject, bits};
use crate::subjects::{DONE, refusal_words};

pub struct Ranges;

/// 17 for a stored key: added, and the answer of both calls.
fn added(asked: &Asked) -> Option<Refused> {
    match &asked.job {
        Job::StoredCategories { categories, .. } => first_outside(categories.iter().map(|category| category.0)),
        _ => None,
    }
}

impl Subject for Ranges {
    type Input = Asked;

    fn cases(&self, asked: &Asked) -> u64 {
        if asked.added().is_none() && added(asked).is_none() { 2 } else { 0 }
    }

    fn ours(&self, asked: &Asked, words: &mut Vec<u64>) {
        let Some(legend) = said(asked.ours().map_err(refusal_words), words) else { return };
        let range = said(legend.total_value_range().map_err(refusal_words), words);
        let (start, end) = range.map_or((0.0, 0.0), |range| range.into_inner());
        words.extend([start, end].map(float_word));
        let colors = said(legend.color_list().map_err(refusal_words), words);
        words.extend(colors.map_or([0; 256], |colors| colors.map(|color| color.word().into())));
    }

    fn theirs(&self, asked: &Asked, words: &mut Vec<u64>) {
        let Some(legend) = said(asked.theirs(), words) else { return };
        if let Some(refused) = added(asked) {
            words.extend(refused);
            words.extend([0; 2]);
            words.extend(refused);
            words.extend([0; 256]);
            return;
        }
        words.extend(DONE);
        let (start, end) = legend.total_value_range();
        words.extend([start, end].map(float_word));
        words.extend(DONE);
        words.extend(legend.color_list().into_iter().map(u64::from));
    }

    fn smaller(&self, asked: &Asked) -> Vec<Asked> {
        smaller_asked(asked)
    }

    fn wanted(&self) -> &'static [&'static str] {
        &["keys near 16,777,216", "keys near -16,777,216"]
    }

    fn has(&self, asked: &Asked) -> u64 {
        let Ok(legend) = asked.ours() else { return 0 };
        if added(asked).is_some() {
            return 0;
        }
        let keys: Vec<i64> = legend.categories().map(|category| category.0).collect();
        bits(far_keys(&keys, &keys))
    }
}

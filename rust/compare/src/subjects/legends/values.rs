//! The colour of a sample by itself.

use super::samples::{Drawn, edges, far_keys, nodata_of};
use super::{Asked, Kinds, ask, fewer, said, smaller_asked};
use crate::engine::{Inputs, Subject, bits};
use crate::random::Random;
use crate::subjects::{DONE, refusal_words};
use std::marker::PhantomData;

/// Samples, each by itself, of one legend.
#[derive(Debug, Clone)]
pub struct Asking<T> {
    pub asked: Asked,
    pub values: Vec<T>,
    pub nodata: Option<T>,
}

pub struct Values<T>(PhantomData<T>);

impl<T> Default for Values<T> {
    fn default() -> Values<T> {
        Values(PhantomData)
    }
}

impl<T: Drawn> Subject for Values<T> {
    type Input = Asking<T>;

    fn cases(&self, asking: &Asking<T>) -> u64 {
        if asking.asked.added().is_none() { asking.values.len() as u64 } else { 0 }
    }

    fn ours(&self, asking: &Asking<T>, words: &mut Vec<u64>) {
        let Some(legend) = said(asking.asked.ours().map_err(refusal_words), words) else { return };
        for &value in &asking.values {
            let color = said(legend.color_for_value(value, asking.nodata).map_err(refusal_words), words);
            words.push(color.unwrap_or_default().word().into());
        }
    }

    fn theirs(&self, asking: &Asking<T>, words: &mut Vec<u64>) {
        let Some(legend) = said(asking.asked.theirs(), words) else { return };
        for &value in &asking.values {
            words.extend(DONE);
            words.push(legend.color_for_value(value, asking.nodata).into());
        }
    }

    fn smaller(&self, asking: &Asking<T>) -> Vec<Asking<T>> {
        let lists = fewer(&asking.values).into_iter().map(|values| Asking { values, ..asking.clone() });
        let asked = smaller_asked(&asking.asked).into_iter().map(|asked| Asking { asked, ..asking.clone() });
        let without = asking.nodata.is_some().then(|| Asking { nodata: None, ..asking.clone() });
        let single = if let [value] = asking.values[..] { value.plainer() } else { vec![] };
        let single = single.into_iter().map(|value| Asking { values: vec![value], ..asking.clone() });
        lists.chain(asked).chain(without).chain(single).collect()
    }

    fn wanted(&self) -> &'static [&'static str] {
        let all = &[
            "a nodata value that is in no sample",
            "a key of a sample near 16,777,216",
            "a key of a sample near -16,777,216",
        ];
        if T::FAR { all } else { &all[..1] }
    }

    fn has(&self, asking: &Asking<T>) -> u64 {
        let Asking { asked, values, nodata } = asking;
        let Ok(legend) = asked.ours() else { return 0 };
        let keys: Vec<i64> = legend.categories().map(|category| category.0).collect();
        let samples: Vec<i64> = values.iter().filter_map(|&sample| legend::key(sample.into())).collect();
        let far = far_keys(&keys, &samples);
        bits([nodata.is_some_and(|nodata| !values.contains(&nodata)), far[0], far[1]])
    }
}

/// Legends at random, 8 samples each, and a nodata value that may be among them.
pub fn random<T: Drawn>(seed: u64, count: u64) -> Inputs<'static, Asking<T>> {
    Inputs::new(count, move |number| {
        let random = &mut Random::new(seed, number);
        let asked = ask(random, Kinds::All);
        let edges = edges(&asked);
        let values: Vec<T> = (0..8).map(|_| T::draw(random, &edges, false)).collect();
        let nodata = nodata_of(random, &values, &edges);
        Asking { asked, values, nodata }
    })
}

//! The calls that are compared.

pub mod cards;
pub mod hex;
pub mod keys;
pub mod legends;
pub mod lookups;
pub mod palettes;
pub mod patterns;
pub mod ramps;
pub mod stored;

use legend::ffi::LegendAnswer;

/// An answer of the library as words: number, whether there is an index, index.
fn answer_words(LegendAnswer { number, indexed, index }: LegendAnswer) -> [u64; 3] {
    [number.into(), indexed.into(), index as u64]
}

/// The same of a refusal.
fn refusal_words(why: legend::Refusal) -> [u64; 3] {
    [why.number().into(), why.index().is_some().into(), why.index().unwrap_or(0) as u64]
}

/// The same where nothing is refused.
const DONE: [u64; 3] = [0; 3];

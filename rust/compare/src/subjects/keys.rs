//! Samples truncated to keys.

use super::patterns::{Block, around};
use crate::engine::{Inputs, Subject};
use legend::ffi;

pub struct Keys;

impl Subject for Keys {
    type Input = Block;

    fn cases(&self, block: &Block) -> u64 {
        block.count.into()
    }

    fn ours(&self, block: &Block, words: &mut Vec<u64>) {
        for sample in block.floats() {
            let cut = ffi::to_i64(sample);
            words.extend([cut.whole.into(), cut.key as u64]);
            assert_eq!(legend::key(sample), (cut.whole == 1).then_some(cut.key));
        }
    }

    fn theirs(&self, block: &Block, words: &mut Vec<u64>) {
        for sample in block.floats() {
            let key = oracle::to_i64(sample);
            words.extend([key.is_some().into(), key.unwrap_or(0) as u64]);
        }
    }

    fn smaller(&self, block: &Block) -> Vec<Block> {
        block.singles()
    }
}

/// The powers of two of both signs, 1 to 2^64, the bounds of a table and the ends of the range.
pub fn edges() -> Inputs<'static, Block> {
    let powers = (0..=64).map(|power| 2f32.powi(power));
    let bounds = [0.0, 0.5, 512.0, 513.0, 16_777_216.0, f32::MAX, f32::INFINITY, f32::NAN];
    around(powers.chain(bounds).flat_map(|x| [x, -x]).collect())
}

//! Blocks of f32 by their bit patterns, so that all 2^32 can be run.

use crate::engine::Inputs;
use std::fmt;

/// The floats with the patterns first, first + step, first + 2 step, ..
#[derive(Clone, PartialEq, Eq)]
pub struct Block {
    pub first: u32,
    pub step: u32,
    pub count: u32,
}

impl Block {
    pub fn floats(&self) -> impl Iterator<Item = f32> {
        let Block { first, step, count } = *self;
        (0..count).map(move |k| f32::from_bits(first.wrapping_add(k.wrapping_mul(step))))
    }

    /// Each float by itself.
    pub fn singles(&self) -> Vec<Block> {
        if self.count == 1 {
            return vec![];
        }
        self.floats().map(|x| Block { first: x.to_bits(), step: 1, count: 1 }).collect()
    }
}

impl fmt::Debug for Block {
    fn fmt(&self, f: &mut fmt::Formatter<'_>) -> fmt::Result {
        let Block { first, step, count } = self;
        match count {
            1 => write!(f, "{:?} (bits {first:#010x})", f32::from_bits(*first)),
            _ => write!(f, "{count} floats from bits {first:#010x} by {step}"),
        }
    }
}

/// A multiple of 16, the largest lane count, that stays in the nearest cache.
const LENGTH: u32 = 1024;

/// Every `step`th pattern of all 2^32.
pub fn every(step: u32) -> Inputs<'static, Block> {
    let patterns = (1u64 << 32).div_ceil(step.into());
    let blocks = patterns.div_ceil(LENGTH.into());
    Inputs::new(blocks, move |number| {
        let from = number * u64::from(LENGTH);
        let count = (patterns - from).min(LENGTH.into()) as u32;
        Block { first: (from * u64::from(step)) as u32, step, count }
    })
}

/// The neighbours of each value, 64 patterns on either side.
pub fn around(values: Vec<f32>) -> Inputs<'static, Block> {
    Inputs::new(values.len() as u64, move |number| {
        let first = values[number as usize].to_bits().wrapping_sub(64);
        Block { first, step: 1, count: 128 }
    })
}

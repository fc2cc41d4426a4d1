//! Looking fractions up in a ramp, plainly and in lanes.

use super::patterns::{Block, around};
use crate::engine::{Inputs, Subject};
use legend::{Color, Ramp};

/// The plain look-up.
#[derive(Default)]
pub struct Plain(Ramps);

/// The look-up in lanes: the reference's at 4, 8 and 16, each against one lane of the library's.
#[derive(Default)]
pub struct Lanes(Ramps);

/// A ramp on both sides, whose entries all differ, from TRANSPARENT too.
struct Ramps {
    ours: Ramp,
    theirs: oracle::Ramp,
}

impl Default for Ramps {
    fn default() -> Ramps {
        let entries: [u32; 256] = std::array::from_fn(|i| (i as u32 + 1).wrapping_mul(0x9e37_79b1));
        Ramps { ours: Ramp::from_entries(entries.map(Color::from_word)), theirs: oracle::Ramp::ready_made(&entries) }
    }
}

impl Subject for Plain {
    type Input = Block;

    fn cases(&self, block: &Block) -> u64 {
        block.count.into()
    }

    fn ours(&self, block: &Block, words: &mut Vec<u64>) {
        words.extend(block.floats().map(|x| u64::from(self.0.ours.color(x).word())));
    }

    fn theirs(&self, block: &Block, words: &mut Vec<u64>) {
        words.extend(block.floats().map(|x| u64::from(self.0.theirs.get_color(x))));
    }

    fn smaller(&self, block: &Block) -> Vec<Block> {
        block.singles()
    }
}

impl Subject for Lanes {
    type Input = Block;

    fn cases(&self, block: &Block) -> u64 {
        3 * u64::from(block.count)
    }

    fn ours(&self, block: &Block, words: &mut Vec<u64>) {
        words.extend(block.floats().map(|x| u64::from(self.0.ours.lane_color(x).word())));
        for _ in 0..2 {
            words.extend_from_within(..block.count as usize);
        }
    }

    fn theirs(&self, block: &Block, words: &mut Vec<u64>) {
        let mut fractions: Vec<f32> = block.floats().collect();
        fractions.resize(fractions.len().next_multiple_of(16), 0.0);
        let mut colors = vec![0; fractions.len()];
        for lanes in [4, 8, 16] {
            self.0.theirs.get_color_simd(lanes, &fractions, &mut colors);
            words.extend(colors[..block.count as usize].iter().map(|&word| u64::from(word)));
        }
    }

    fn smaller(&self, block: &Block) -> Vec<Block> {
        block.singles()
    }
}

/// Where one entry gives way to the next, by either rule, and where a rule ends.
pub fn edges() -> Inputs<'static, Block> {
    let entries = (0..=510).map(|half| half as f32 / 510.0);
    let ends = [0.0, -0.0, 1.0, -1.0, f32::MIN_POSITIVE, f32::INFINITY, f32::NEG_INFINITY, f32::NAN];
    around(entries.chain(ends).collect())
}

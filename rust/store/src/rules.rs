//! What the reference does not say, read from docs/RULES.md a second time: the indexes beside refusals, and scratch after a
//! painting in lanes.

use crate::row::MARK;
use oracle::{Legend, Record};

/// The refusals of these rows that carry an index.
pub const INDEXED: [u32; 2] = [3, 10];

/// "Hex colour", 3: the first pair that is no hex byte. A text of the wrong form has none.
pub fn bad_pair(text: &[u8]) -> Option<usize> {
    let pairs = text.get(1..)?.chunks(2);
    pairs.enumerate().find(|(_, pair)| !is_hex_byte(pair)).map(|(index, _)| index)
}

/// Two hex digits of either case, or `+` and one digit.
fn is_hex_byte(pair: &[u8]) -> bool {
    match pair {
        [b'+', low] => low.is_ascii_hexdigit(),
        [high, low] => high.is_ascii_hexdigit() && low.is_ascii_hexdigit(),
        _ => false,
    }
}

/// "Manual ranges", 10: the first range whose start is at or above its end, of starts and ends by turns.
pub fn empty_range(edges: &[f32]) -> Option<usize> {
    edges.chunks(2).position(|edge| edge.len() == 2 && edge[0] >= edge[1])
}

/// "Painting": the first words of scratch hold the last full chunk's colours; the others, and all of them where there was
/// no full chunk or the painting was plain, are unchanged. No legend stands for the empty one, which is linear.
pub fn scratch(lanes: usize, legend: Option<&Legend>, painted: &[u32]) -> [u32; 16] {
    let plainly = |legend: &Legend| matches!(legend.record(), Record::Categoric { table: None, .. });
    let mut scratch = [MARK; 16];
    if let (false, Some(chunk)) = (legend.is_some_and(plainly), painted.chunks_exact(lanes).last()) {
        scratch[..lanes].copy_from_slice(chunk);
    }
    scratch
}

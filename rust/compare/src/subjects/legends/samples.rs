//! Numbers at random: of every kind, and near to where a rule changes.

use crate::random::Random;
use std::fmt::Debug;

/// E of the rules.
pub const EDGE: f32 = 1e-4;

/// The fraction at which the two look-ups differ.
const CLOSE: f32 = f32::from_bits(0x3b00_8080);

const SPECIAL: [f32; 22] = [
    0.0,
    -0.0,
    f32::MIN_POSITIVE,
    -f32::MIN_POSITIVE,
    f32::from_bits(1),
    f32::from_bits(0x8000_0001),
    f32::from_bits(0x007f_ffff),
    f32::INFINITY,
    f32::NEG_INFINITY,
    f32::NAN,
    f32::from_bits(0xffc0_0001),
    f32::from_bits(0x7f80_0001),
    f32::MAX,
    f32::MIN,
    1.0,
    -1.0,
    EDGE,
    -EDGE,
    16_777_216.0,
    255.0,
    9.223_372e18,
    -9.223_372e18,
];

/// A number of any kind, an ordinary one half of the time.
pub fn float(random: &mut Random) -> f32 {
    match random.below(16) {
        0 => random.one_of(&SPECIAL),
        1 => f32::from_bits(random.word() as u32),
        2 => EDGE * random.below(5) as f32,
        3..=6 => random.below(700) as f32 - 100.0,
        _ => fraction(random) * 10f32.powi(random.below(10) as i32 - 3),
    }
}

/// From -1 to 1.
fn fraction(random: &mut Random) -> f32 {
    random.below(1 << 24) as f32 / (1 << 23) as f32 - 1.0
}

/// A number, plus or minus E, and a neighbour of that.
pub fn near(random: &mut Random, x: f32) -> f32 {
    let x = random.one_of(&[x, x, x + EDGE, x - EDGE]);
    let steps = random.below(5) as i32 - 2;
    (0..steps.abs()).fold(x, |x, _| if steps < 0 { x.next_down() } else { x.next_up() })
}

/// How long a raster is: around every multiple of the lane counts, now and then around a block of 256 or two, or longer.
pub fn raster_length(random: &mut Random) -> usize {
    let lanes = random.one_of(&[4, 8, 16]);
    let whole = match random.below(32) {
        0 => random.one_of(&[256, 512]),
        1 | 2 => random.below(40) * lanes,
        _ => random.below(6) * lanes,
    };
    (whole + random.below(5)).saturating_sub(2) as usize
}

/// The limit of a builder's keys, either way.
pub const FAR: i64 = 16_777_216;

/// Whether some sample's key is a legend's and near to the limit: above, and below.
pub fn far_keys(keys: &[i64], samples: &[i64]) -> [bool; 2] {
    [FAR - 300..=FAR, -FAR..=300 - FAR].map(|near| samples.iter().any(|key| near.contains(key) && keys.contains(key)))
}

/// A nodata value half of the time: one of the samples, or one that is in none.
pub fn nodata_of<T: Drawn>(random: &mut Random, samples: &[T], edges: &[f32]) -> Option<T> {
    if random.once_in(2) {
        return None;
    }
    if samples.is_empty() || random.once_in(3) {
        let other = T::draw(random, edges, false);
        return Some(other).filter(|other| !samples.contains(other));
    }
    Some(random.one_of(samples))
}

/// A type of sample on both sides.
pub trait Drawn: legend::Sample + oracle::Sample + Debug + PartialEq + Into<f32> + Send + Sync + 'static {
    /// Whether its samples reach the limits of a builder's keys.
    const FAR: bool;

    /// One at random: near to an edge of the legend, between its edges, or any.
    fn draw(random: &mut Random, edges: &[f32], inside: bool) -> Self;

    /// Samples that are plainer.
    fn plainer(self) -> Vec<Self>;
}

impl Drawn for f32 {
    const FAR: bool = true;

    fn draw(random: &mut Random, edges: &[f32], inside: bool) -> f32 {
        if edges.is_empty() || !inside && random.once_in(6) {
            return float(random);
        }
        let one = random.one_of(edges);
        if !inside && random.once_in(2) {
            return near(random, one);
        }
        let other = random.one_of(edges);
        let part = if random.once_in(32) { CLOSE } else { fraction(random).abs() };
        one + (other - one) * part
    }

    fn plainer(self) -> Vec<f32> {
        super::plainer_floats(self)
    }
}

/// A whole number near to one that was drawn as f32; any where that is none.
macro_rules! whole {
    ($type:ty) => {
        impl Drawn for $type {
            const FAR: bool = false;

            fn draw(random: &mut Random, edges: &[f32], inside: bool) -> $type {
                let drawn = f32::draw(random, edges, inside).round();
                let fits = drawn >= <$type>::MIN.into() && drawn <= <$type>::MAX.into();
                match random.below(8) {
                    0 => random.one_of(&[0, 1, <$type>::MIN, <$type>::MAX]),
                    1 => random.word() as $type,
                    _ if fits => drawn as $type,
                    _ => random.below(120) as $type,
                }
            }

            fn plainer(self) -> Vec<$type> {
                if self == 0 { vec![] } else { vec![0] }
            }
        }
    };
}

whole!(u8);
whole!(i16);

/// Where the colours of a legend change.
pub fn edges(asked: &super::Asked) -> Vec<f32> {
    let Ok(made) = asked.theirs() else { return vec![] };
    match made.record() {
        oracle::Record::Linear { start, end, .. } => vec![start, end],
        oracle::Record::Banded(bands) => bands.iter().flat_map(|band| [band.0, band.1]).collect(),
        oracle::Record::Categoric { categories, table } => {
            let keys = categories.iter().flat_map(|(key, _)| [*key as f32, (key.wrapping_add(1)) as f32]);
            keys.chain(table.map(|words| words.len() as f32)).collect()
        }
    }
}

//! Uses of records that no builder makes, by the C calls themselves: keys that stand twice or in no order, words beyond a
//! count, flags, kinds, lane counts and lengths of every sort. The reference cannot hold most of them, so each answer is
//! compared with docs/RULES.md, as [`crate::rules`] reads it.

use super::legends::samples::{Drawn, far_keys, float, near, raster_length};
use super::legends::{FAR, color_word, fewer, float_word, nodata_of};
use super::{DONE, answer_words};
use crate::engine::{Inputs, Subject, bits};
use crate::random::Random;
use crate::rules::{self, Refused};
use legend::ffi::{self, LegendAnswer, LegendBand, LegendColor, LegendRecord, LegendSettings};
use legend::{Color, key};
use std::marker::PhantomData;

/// A record, part by part. All three kinds are filled, whichever counts.
#[derive(Debug, Clone)]
pub struct Stored {
    pub kind: u32,
    pub flags: [u32; 3],
    pub bounds: (f32, f32),
    pub bands: Vec<(f32, f32, u32)>,
    pub categories: Vec<(i64, u32)>,
    pub table: Vec<u32>,
    /// How far the count of the kind's first list, or that of the table, is above its capacity; 0 where it is the length.
    pub above: [usize; 2],
    /// The number of the words that stand beyond the counts, and of the ramp; with 0 they are 0.
    pub beyond: u32,
}

impl Stored {
    /// The record as C has it. Beyond the counts stand bands that hold every number, keys of the counted ones and small
    /// ones, and words of no sense.
    pub fn record(&self) -> LegendRecord {
        let Stored {
            kind,
            flags: [has_low, has_high, zero_is_nodata],
            bounds,
            bands,
            categories,
            table,
            above,
            beyond,
        } = self;
        let mut made = LegendRecord { kind: *kind, ..LegendRecord::EMPTY };
        made.settings = LegendSettings {
            nodata_color: Color::from_word(0x8000_0001),
            low_color: Color::from_word(0xff00_0002),
            high_color: Color::from_word(0xff00_0003),
            has_low: *has_low,
            has_high: *has_high,
            zero_is_nodata: *zero_is_nodata,
        };
        let word = |at: usize| Color::from_word((at as u32 + 1).wrapping_mul(*beyond));
        (made.linear.start, made.linear.end) = *bounds;
        made.linear.cmap = std::array::from_fn(|at| word(at + 1));
        if *beyond != 0 {
            made.banded.bands = std::array::from_fn(|at| LegendBand { start: -1e38, end: 1e38, color: word(at) });
            let repeated = |at: usize| categories.get(at % (2 * categories.len()).max(1)).map_or(at as i64, |c| c.0);
            made.categoric.keys = std::array::from_fn(repeated);
            made.categoric.colors = std::array::from_fn(|at| word(at + 1000));
            made.categoric.lookup = std::array::from_fn(|at| word(at + 2000));
        }
        for (place, &(start, end, color)) in made.banded.bands.iter_mut().zip(bands) {
            *place = LegendBand { start, end, color: Color::from_word(color) };
        }
        for (at, &(key, color)) in categories.iter().enumerate() {
            (made.categoric.keys[at], made.categoric.colors[at]) = (key, Color::from_word(color));
        }
        for (place, &color) in made.categoric.lookup.iter_mut().zip(table) {
            *place = Color::from_word(color);
        }
        let count = |length: usize, above: usize, capacity: usize| if above > 0 { capacity + above } else { length };
        made.banded.count = count(bands.len(), above[0], 64);
        made.categoric.count = count(categories.len(), above[0], 256);
        made.categoric.lookup_count = count(table.len(), above[1], 513);
        made
    }

    /// Where its colours change.
    fn edges(&self) -> Vec<f32> {
        match self.kind {
            0 => vec![self.bounds.0, self.bounds.1],
            1 => self.bands.iter().flat_map(|band| [band.0, band.1]).collect(),
            _ => self.categories.iter().map(|category| category.0 as f32).chain([self.table.len() as f32]).collect(),
        }
    }

    pub(super) fn smaller(&self) -> Vec<Stored> {
        let same = || self.clone();
        let mut all = vec![];
        if self.above != [0, 0] {
            all.push(Stored { above: [0, 0], ..same() });
        }
        if self.beyond != 0 {
            all.push(Stored { beyond: 0, ..same() });
        }
        if self.flags != [0, 0, 0] {
            all.push(Stored { flags: [0, 0, 0], ..same() });
        }
        all.extend(fewer(&self.bands).into_iter().map(|bands| Stored { bands, ..same() }));
        all.extend(fewer(&self.categories).into_iter().map(|categories| Stored { categories, ..same() }));
        all.extend(fewer(&self.table).into_iter().map(|table| Stored { table, ..same() }));
        all
    }
}

/// A record at random.
pub(super) fn any(random: &mut Random) -> Stored {
    let word = |random: &mut Random| random.word() as u32;
    let kind = if random.once_in(64) { random.one_of(&[3, 256, u32::MAX]) } else { random.below(3) as u32 };
    let odd = |random: &mut Random| random.once_in(64).then(|| random.one_of(&[2, 256, u32::MAX]));
    let flags = std::array::from_fn(|_| odd(random).unwrap_or(random.below(2) as u32));
    let bounds = (float(random), float(random));
    let bands = any_bands(random).into_iter().map(|(start, end)| (start, end, word(random))).collect();
    let categories = any_keys(random).into_iter().map(|key| (key, word(random))).collect();
    let length = if random.once_in(2) { 0 } else { random.one_of(&[1, 2, 17, 100, 256, 512, 513]) };
    let table = (0..length).map(|_| word(random)).collect();
    let mut above = || if random.once_in(64) { random.one_of(&[1, 2, 1000, usize::MAX - 600]) } else { 0 };
    let above = [above(), above()];
    let beyond = if random.once_in(4) { 0 } else { word(random) | 1 };
    Stored { kind, flags, bounds, bands, categories, table, above, beyond }
}

fn any_count(random: &mut Random, capacity: usize) -> usize {
    match random.below(8) {
        0 => capacity - random.below(2) as usize,
        1 => random.below(capacity as u64) as usize,
        _ => random.below(10) as usize,
    }
}

/// Ranges in order, some thinner than E, or any.
fn any_bands(random: &mut Random) -> Vec<(f32, f32)> {
    let (count, mut at) = (any_count(random, 64), float(random));
    let style = random.below(3);
    let range = |_| match style {
        0 => (near(random, at), at + float(random)),
        _ => {
            let width = if style == 1 { 3e-5 } else { 0.5 + random.below(9) as f32 };
            let start = at + if random.once_in(4) { width } else { 0.0 };
            at = start + width;
            (start, at)
        }
    };
    (0..count).map(range).collect()
}

/// Keys of a few numbers, so that some stand twice; in order or not; near to a limit, or beyond it.
fn any_keys(random: &mut Random) -> Vec<i64> {
    let count = any_count(random, 256);
    let (from, width) = match random.below(8) {
        0 => (FAR - 300, 301),
        1 => (-FAR, 300),
        2 => (FAR - 100, 200),
        3 => (-FAR - 100, 200),
        4 => (i64::MIN, u64::MAX),
        5 => (-5, 12),
        _ => (-20, 2 * count as u64 + 30),
    };
    let mut keys: Vec<i64> = (0..count).map(|_| from.wrapping_add(random.below(width) as i64)).collect();
    match random.below(3) {
        0 => (),
        1 => keys.sort_unstable(),
        _ => {
            keys.sort_unstable();
            keys.dedup();
        }
    }
    keys
}

/// The C calls of a type of sample.
pub trait Raw: Drawn {
    const COLOR: ColorFor<Self>;
    const PAINT: Paint<Self>;
    const PAINT_LANES: PaintLanes<Self>;
}

type ColorFor<T> = fn(&LegendRecord, T, u32, T) -> LegendColor;
type Paint<T> = fn(&LegendRecord, &[T], u32, T, &mut [Color]) -> LegendAnswer;
type PaintLanes<T> = fn(&LegendRecord, usize, &[T], u32, T, &mut [Color], &mut [Color]) -> LegendAnswer;

macro_rules! raw {
    ($type:ty, $color:ident, $paint:ident, $paint_lanes:ident) => {
        impl Raw for $type {
            const COLOR: ColorFor<$type> = ffi::$color;
            const PAINT: Paint<$type> = ffi::$paint;
            const PAINT_LANES: PaintLanes<$type> = ffi::$paint_lanes;
        }
    };
}

raw!(f32, color_for_f32, paint_f32, paint_lanes_f32);
raw!(u8, color_for_u8, paint_u8, paint_lanes_u8);
raw!(i16, color_for_i16, paint_i16, paint_lanes_i16);

/// A painting of a record, with lengths of every sort, and the colours of its first samples.
#[derive(Debug, Clone)]
pub struct Use<T> {
    pub stored: Stored,
    /// `None`: plainly.
    pub lanes: Option<usize>,
    pub raster: Vec<T>,
    pub given: u32,
    pub nodata: T,
    pub places: usize,
    pub spare: usize,
}

pub struct Uses<T>(PhantomData<T>);

impl<T> Default for Uses<T> {
    fn default() -> Uses<T> {
        Uses(PhantomData)
    }
}

/// How many samples are asked for by themselves.
const SINGLES: usize = 4;

/// Words that are lent.
fn lent(first: u32, count: usize) -> Vec<u32> {
    (0..count as u32).map(|at| first + at).collect()
}

/// What the rules refuse, as words.
pub(super) fn refused_words<A>(answer: &Result<A, Refused>) -> [u64; 3] {
    match answer {
        Ok(_) => DONE,
        Err(Refused { number, index }) => {
            [u64::from(*number), index.is_some().into(), index.map_or(0, |index| index as u64)]
        }
    }
}

impl<T: Raw> Use<T> {
    /// The answer, the output and the scratch of the rules.
    fn ruled(&self) -> (Result<(), Refused>, Vec<u32>, Vec<u32>) {
        let Use { stored, lanes, raster, given, nodata, places, spare } = self;
        let (mut out, mut scratch) = (lent(0x5a5a_0000, *places), lent(0xa5a5_0000, *spare));
        let (legend, nodata): (_, f32) = (stored.record(), (*nodata).into());
        let raster: Vec<f32> = raster.iter().map(|&sample| sample.into()).collect();
        let answer = match lanes {
            None => rules::paint(&legend, &raster, *given, nodata, &mut out),
            Some(lanes) => rules::paint_lanes(&legend, *lanes, &raster, *given, nodata, &mut out, &mut scratch),
        };
        (answer, out, scratch)
    }
}

/// What has to be among the inputs: the last two can be had of f32 alone.
const WANTED: [&str; 17] = [
    "a key of a sample that stands twice, in two colours",
    "a key of a sample that stands beyond the count alone",
    "a sample in a band beyond the count",
    "a sample in the table beyond its count",
    "13, the output's length",
    "14, the lane count",
    "15, the scratch's length",
    "16, a stored count",
    "100, a flag",
    "101, a kind",
    "a raster's length that is 2 mod 4",
    "a raster's length from 255 to 257",
    "a raster's length from 511 to 513",
    "a nodata value that is in no sample",
    "a painting that is done",
    "a key of a sample near 16,777,216",
    "a key of a sample near -16,777,216",
];

impl<T: Raw> Subject for Uses<T> {
    type Input = Use<T>;

    fn ours(&self, input: &Use<T>, words: &mut Vec<u64>) {
        let Use { stored, lanes, raster, given, nodata, places, spare } = input;
        let (mut out, mut scratch) = (lent(0x5a5a_0000, *places), lent(0xa5a5_0000, *spare));
        let (to, kept) = (Color::of_words(&mut out), Color::of_words(&mut scratch));
        let legend = stored.record();
        let answer = match lanes {
            None => T::PAINT(&legend, raster, *given, *nodata, to),
            Some(lanes) => T::PAINT_LANES(&legend, *lanes, raster, *given, *nodata, to, kept),
        };
        words.extend(answer_words(answer));
        words.extend(out.into_iter().chain(scratch).map(u64::from));
        for &sample in raster.iter().take(SINGLES) {
            let color = T::COLOR(&legend, sample, *given, *nodata);
            words.extend(answer_words(color.answer));
            words.push(color_word(&color.color));
        }
    }

    fn theirs(&self, input: &Use<T>, words: &mut Vec<u64>) {
        let (answer, out, scratch) = input.ruled();
        words.extend(refused_words(&answer));
        words.extend(out.into_iter().chain(scratch).map(u64::from));
        let legend = input.stored.record();
        for &sample in input.raster.iter().take(SINGLES) {
            let color = rules::color_for(&legend, sample.into(), input.given, input.nodata.into());
            words.extend(refused_words(&color));
            words.push(color.unwrap_or(0).into());
        }
    }

    fn smaller(&self, input: &Use<T>) -> Vec<Use<T>> {
        let shorter = fewer(&input.raster).into_iter().map(|raster| {
            let places = if input.places == input.raster.len() { raster.len() } else { input.places };
            Use { raster, places, ..input.clone() }
        });
        let smaller = input.stored.smaller().into_iter().map(|stored| Use { stored, ..input.clone() });
        let without = (input.given == 1).then(|| Use { given: 0, ..input.clone() });
        shorter.chain(smaller).chain(without).collect()
    }

    fn wanted(&self) -> &'static [&'static str] {
        if T::FAR { &WANTED } else { &WANTED[..15] }
    }

    fn has(&self, input: &Use<T>) -> u64 {
        let Use { stored, raster, given, nodata, .. } = input;
        let legend = stored.record();
        let done = input.ruled().0.err().map_or(0, |refused| refused.number);
        let used = done == 0;
        let keys: Vec<i64> = raster.iter().filter_map(|&sample| key(sample.into())).collect();
        let categoric = &legend.categoric;
        let counted = |count: usize| count.min(256);
        let by_keys = used && stored.kind == 2 && categoric.lookup_count == 0;
        let (within, beyond) = categoric.keys.split_at(counted(categoric.count));
        let color = |place: usize| categoric.colors[place];
        let twice = |key: &i64| {
            let mut places = (0..within.len()).filter(|&place| within[place] == *key);
            places.next().is_some_and(|first| places.any(|other| color(other) != color(first)))
        };
        let past = |key: &i64| !within.contains(key) && beyond.contains(key);
        let in_band =
            |band: &LegendBand| raster.iter().any(|&sample| band.start <= sample.into() && sample.into() < band.end);
        let held = |bands: &[LegendBand]| used && stored.kind == 1 && bands.iter().any(in_band);
        let table = categoric.lookup_count.min(513) as i64..513;
        let far = far_keys(within, &keys);
        let length = |lengths: std::ops::RangeInclusive<usize>| lengths.contains(&raster.len());
        bits([
            by_keys && keys.iter().any(twice),
            by_keys && keys.iter().any(past),
            held(&legend.banded.bands[legend.banded.count.min(64)..]),
            used && stored.kind == 2 && table.start > 0 && keys.iter().any(|key| table.contains(key)),
            done == 13,
            done == 14,
            done == 15,
            done == 16,
            done == 100,
            done == 101,
            used && raster.len() % 4 == 2,
            used && length(255..=257),
            used && length(511..=513),
            used && *given == 1 && !raster.contains(nodata),
            used,
            by_keys && far[0],
            by_keys && far[1],
        ])
    }
}

/// Records and rasters at random.
pub fn random<T: Raw>(seed: u64, count: u64) -> Inputs<'static, Use<T>> {
    Inputs::new(count, move |number| {
        let random = &mut Random::new(seed, number);
        let stored = any(random);
        let edges = stored.edges();
        let length = raster_length(random);
        let inside = random.once_in(2);
        let mut sample = || {
            let inside = inside && !random.once_in(8);
            T::draw(random, &edges, inside)
        };
        let raster: Vec<T> = (0..length).map(|_| sample()).collect();
        let nodata = nodata_of(random, &raster, &edges);
        let given = if random.once_in(64) { 2 } else { nodata.is_some().into() };
        let nodata = nodata.unwrap_or_else(|| T::draw(random, &edges, false));
        let lanes = match random.below(32) {
            0 => Some(random.one_of(&[0, 1, 2, 3, 5, 7, 12, 15, 17, 32, usize::MAX])),
            _ => random.one_of(&[None, Some(4), Some(8), Some(16)]),
        };
        let spare = if random.once_in(16) { random.below(16) } else { 16 + random.below(4) } as usize;
        let places = if random.once_in(16) { (length + random.below(4) as usize).saturating_sub(2) } else { length };
        Use { stored, lanes, raster, given, nodata, places, spare }
    })
}

/// The range of values and the list of colours of a record.
pub struct Wholes;

impl Subject for Wholes {
    type Input = Stored;

    fn cases(&self, _: &Stored) -> u64 {
        2
    }

    fn ours(&self, stored: &Stored, words: &mut Vec<u64>) {
        let legend = stored.record();
        let range = ffi::total_value_range(&legend);
        words.extend(answer_words(range.answer));
        words.extend([range.start, range.end].map(float_word));
        let list = ffi::color_list(&legend);
        words.extend(answer_words(list.answer));
        words.extend(list.colors.iter().map(color_word));
    }

    fn theirs(&self, stored: &Stored, words: &mut Vec<u64>) {
        let legend = stored.record();
        let range = rules::total_value_range(&legend);
        words.extend(refused_words(&range));
        let (start, end) = range.unwrap_or((0.0, 0.0));
        words.extend([start, end].map(float_word));
        let list = rules::color_list(&legend);
        words.extend(refused_words(&list));
        words.extend(list.unwrap_or([0; 256]).map(u64::from));
    }

    fn smaller(&self, stored: &Stored) -> Vec<Stored> {
        stored.smaller()
    }

    fn wanted(&self) -> &'static [&'static str] {
        &[
            "16, a stored count",
            "17, a stored key",
            "100, a flag",
            "101, a kind",
            "keys of which one stands twice",
            "keys beyond the count that would widen the range",
            "keys near 16,777,216",
            "keys near -16,777,216",
        ]
    }

    fn has(&self, stored: &Stored) -> u64 {
        let legend = stored.record();
        let range = rules::total_value_range(&legend);
        let number = range.err().map_or(0, |refused| refused.number);
        let used = number == 0 && stored.kind == 2;
        let (within, beyond) = legend.categoric.keys.split_at(legend.categoric.count.min(256));
        let twice = (1..within.len()).any(|at| within[..at].contains(&within[at]));
        let wider = within.iter().max() < beyond.iter().max() || beyond.iter().min() < within.iter().min();
        let far = far_keys(within, within);
        bits([
            number == 16,
            number == 17,
            number == 100,
            number == 101,
            used && twice,
            used && wider,
            used && far[0],
            used && far[1],
        ])
    }
}

/// Records at random.
pub fn random_records(seed: u64, count: u64) -> Inputs<'static, Stored> {
    Inputs::new(count, move |number| any(&mut Random::new(seed, number)))
}

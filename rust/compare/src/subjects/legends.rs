//! Legends: what is asked for, on both sides, and the answers as words.
//!
//! The two are equal where no added refusal applies. Where one does, the reference is not asked: the answer is held to
//! the table of refusals, and is not counted as a case.

pub mod builders;
pub mod paintings;
pub mod ranges;
pub mod samples;
pub mod values;

mod asking;
mod shrinking;

use super::DONE;
use legend::ffi::{LegendBand, LegendBanded, LegendCategoric, LegendLinear, LegendRecord, LegendSettings};
use legend::{Band, Color, Colors, Legend, Parts, Ramp, Refusal, Settings};
use oracle::{Colors as From, Config, Record};
use std::sync::OnceLock;

pub use asking::{Kinds, ask};
pub(crate) use samples::{FAR, nodata_of};
pub(crate) use shrinking::{fewer, plainer_floats, smaller_asked};

/// A legend that is asked for.
#[derive(Debug, Clone)]
pub struct Asked {
    pub job: Job,
    pub config: Config,
}

/// A builder with its arguments, or a record that no builder makes. A list of colours is opaque where it is spread over
/// a ramp: alpha is an intended difference, compared with the ramps.
#[derive(Debug, Clone)]
pub enum Job {
    Linear { colors: From, start: f32, end: f32 },
    LinearOverEntries { entries: Entries, start: f32, end: f32 },
    EqualBands { count: usize, colors: From, start: f32, end: f32 },
    ManualRanges { ranges: Vec<(f32, f32)>, colors: From },
    BandsAsGiven { bands: Vec<(f32, f32, u32)> },
    Values { values: Vec<i64>, colors: From },
    KeyRange { start: i64, end: i64, colors: From },
    StoredLinear { entries: Entries, start: f32, end: f32 },
    StoredCategories { categories: Vec<(i64, u32)>, table: Option<Vec<u32>> },
}

/// A ramp of 256 entries that all differ, by a number.
#[derive(Debug, Clone, Copy)]
pub struct Entries(pub u32);

impl Entries {
    fn words(self) -> [u32; 256] {
        std::array::from_fn(|i| (i as u32 + 1).wrapping_mul(0x9e37_79b1) ^ self.0)
    }

    fn colors(self) -> [Color; 256] {
        self.words().map(Color::from_word)
    }
}

/// The ramp of a preset, made once.
fn preset(number: usize, reversed: bool) -> &'static Ramp {
    static RAMPS: OnceLock<Vec<Ramp>> = OnceLock::new();
    let made = |place: usize| {
        let preset = From::Preset(place / 2, place % 2 == 1);
        let entries = oracle::Ramp::create(&preset).expect("presets are not refused").entries();
        Ramp::from_entries(entries.map(Color::from_word))
    };
    &RAMPS.get_or_init(|| (0..2 * oracle::preset_count()).map(made).collect())[2 * number + usize::from(reversed)]
}

fn list(words: &[u32]) -> Vec<Color> {
    words.iter().map(|&word| Color::from_word(word)).collect()
}

/// Gives a builder the colours in the library's form.
fn with_colors<R>(from: &From, build: impl FnOnce(Colors) -> R) -> R {
    match from {
        From::List(words) => build(Colors::List(&list(words))),
        From::Preset(number, reversed) => build(Colors::Ramp(preset(*number, *reversed))),
    }
}

fn settings(config: &Config) -> Settings {
    Settings {
        nodata_color: Color::from_word(config.nodata_color),
        low_color: config.low.map(Color::from_word),
        high_color: config.high.map(Color::from_word),
        zero_is_nodata: config.zero_is_nodata,
    }
}

/// A refusal of the table with its index, as words.
type Refused = [u64; 3];

impl Asked {
    /// The library's legend.
    pub fn ours(&self) -> Result<Legend, Refusal> {
        let settings = settings(&self.config);
        match &self.job {
            Job::Linear { colors, start, end } => with_colors(colors, |c| Legend::linear(c, *start..=*end, settings)),
            Job::LinearOverEntries { entries, start, end } => {
                Legend::linear(&Ramp::from_entries(entries.colors()), *start..=*end, settings)
            }
            Job::EqualBands { count, colors, start, end } => {
                with_colors(colors, |c| Legend::equal_bands(*count, c, *start..=*end, settings))
            }
            Job::ManualRanges { ranges, colors } => {
                let ranges: Vec<_> = ranges.iter().map(|&(start, end)| start..end).collect();
                with_colors(colors, |c| Legend::manual_ranges(c, &ranges, settings))
            }
            Job::BandsAsGiven { bands } => {
                let band = |&(start, end, color): &_| Band { start, end, color: Color::from_word(color) };
                Legend::bands_as_given(&bands.iter().map(band).collect::<Vec<_>>(), settings)
            }
            Job::Values { values, colors } => {
                with_colors(colors, |c| Legend::categories_for_values(c, values, settings))
            }
            Job::KeyRange { start, end, colors } => {
                with_colors(colors, |c| Legend::categories_for_range(c, *start..=*end, settings))
            }
            Job::StoredLinear { .. } | Job::StoredCategories { .. } => {
                Ok(Legend::from_parts(self.parts().expect("a record is asked for"), settings))
            }
        }
    }

    /// The record where one is asked for.
    fn parts(&self) -> Option<Parts> {
        match &self.job {
            &Job::StoredLinear { entries, start, end } => {
                Some(Parts::Linear(LegendLinear { start, end, cmap: entries.colors() }))
            }
            Job::StoredCategories { categories, table } => {
                Some(Parts::Categoric(categoric(categories, table.as_deref())))
            }
            _ => None,
        }
    }

    /// The reference's legend, or the refusal: an added one by the table, any other by the reference.
    pub fn theirs(&self) -> Result<oracle::Legend, Refused> {
        let config = self.config;
        if let Some(refused) = self.added() {
            return Err(refused);
        }
        let made = match &self.job {
            Job::Linear { colors, start, end } => oracle::Legend::linear(colors, *start, *end, config),
            Job::LinearOverEntries { entries, start, end } => {
                oracle::Legend::linear_ready_made(&entries.words(), *start, *end, config)
            }
            Job::EqualBands { count, colors, start, end } => {
                oracle::Legend::equal_bands(*count, colors, *start, *end, config)
            }
            Job::ManualRanges { ranges, colors } => oracle::Legend::manual_ranges(ranges, colors, config),
            Job::BandsAsGiven { bands } => Ok(oracle::Legend::bands(bands, config)),
            Job::Values { values, colors } => oracle::Legend::categories(values, colors, config),
            Job::KeyRange { start, end, colors } => oracle::Legend::category_range(*start, *end, colors, config),
            Job::StoredLinear { entries, start, end } => {
                Ok(oracle::Legend::linear_stored(&entries.words(), *start, *end, config))
            }
            Job::StoredCategories { categories, table } => {
                Ok(oracle::Legend::categories_stored(categories, table.clone(), config))
            }
        };
        made.map_err(|refused| self.indexed(refused.number().into()))
    }

    /// A refusal of the reference with the table's index, which is not in the reference's words.
    fn indexed(&self, number: u64) -> Refused {
        match &self.job {
            Job::ManualRanges { ranges, .. } if number == 10 => {
                let first = ranges.iter().position(is_empty).expect("a range is refused");
                [number, 1, first as u64]
            }
            _ => [number, 0, 0],
        }
    }

    /// The added refusal of the table, where it is the answer.
    pub fn added(&self) -> Option<Refused> {
        let plain = |number| Some([number, 0, 0]);
        match &self.job {
            Job::Linear { colors: From::List(words), .. } if words.len() > 256 => plain(5),
            Job::EqualBands { count, start, end, .. } if *count > 64 && !is_above(*start, *end) => plain(8),
            Job::ManualRanges { ranges, .. } if ranges.len() > 64 => plain(8),
            Job::BandsAsGiven { bands } if bands.len() > 64 => plain(8),
            Job::Values { values, .. } if values.len() > 256 => plain(11),
            Job::Values { values, colors } if has_length(colors, values.len() as i64) => {
                first_outside(values.iter().copied())
            }
            Job::KeyRange { start, end, colors } => {
                match end.checked_sub(*start).and_then(|difference| difference.checked_add(1)) {
                    None => plain(12),
                    Some(257..) => plain(11),
                    Some(count) if has_length(colors, count) => first_outside(*start..=*end),
                    Some(_) => None,
                }
            }
            _ => None,
        }
    }
}

/// A NaN is above nothing.
fn is_above(start: f32, end: f32) -> bool {
    start > end
}

/// Whether 10 refuses a range; it refuses none that has a NaN.
fn is_empty(&(start, end): &(f32, f32)) -> bool {
    start >= end
}

fn has_length(colors: &From, count: i64) -> bool {
    match colors {
        From::List(words) => words.len() as i64 == count,
        From::Preset(..) => true,
    }
}

/// 17 for the first key that is out of range.
fn first_outside(mut keys: impl Iterator<Item = i64>) -> Option<Refused> {
    keys.position(|key| !(-16_777_216..=16_777_216).contains(&key)).map(|first| [17, 1, first as u64])
}

/// Categories as a record has them, in their order.
fn categoric(categories: &[(i64, u32)], table: Option<&[u32]>) -> LegendCategoric {
    let mut made = LegendCategoric::EMPTY;
    made.count = categories.len();
    for (at, &(key, color)) in categories.iter().enumerate() {
        (made.keys[at], made.colors[at]) = (key, Color::from_word(color));
    }
    let table = table.unwrap_or_default();
    made.lookup_count = table.len();
    made.lookup[..table.len()].copy_from_slice(&list(table));
    made
}

/// What the reference's legend holds, as a record has it: every place that is not used is 0.
fn record(legend: &oracle::Legend, config: &Config) -> LegendRecord {
    let parts = match legend.record() {
        Record::Linear { start, end, ramp } => {
            Parts::Linear(LegendLinear { start, end, cmap: ramp.map(Color::from_word) })
        }
        Record::Banded(bands) => {
            let mut made = LegendBanded::EMPTY;
            made.count = bands.len();
            for (place, (start, end, color)) in made.bands.iter_mut().zip(bands) {
                *place = LegendBand { start, end, color: Color::from_word(color) };
            }
            Parts::Banded(made)
        }
        Record::Categoric { categories, table } => Parts::Categoric(categoric(&categories, table.as_deref())),
    };
    *Legend::from_parts(parts, settings(config)).record()
}

/// One NaN is as good as another.
pub(crate) fn float_word(x: f32) -> u64 {
    if x.is_nan() { f32::NAN.to_bits().into() } else { x.to_bits().into() }
}

pub(crate) fn color_word(color: &Color) -> u64 {
    color.word().into()
}

/// Every field of a record: a field that is added to a struct has to be added here.
fn record_words(record: &LegendRecord, words: &mut Vec<u64>) {
    let LegendRecord { kind, settings, linear, banded, categoric } = record;
    words.push((*kind).into());
    let LegendSettings { nodata_color, low_color, high_color, has_low, has_high, zero_is_nodata } = settings;
    words.extend([nodata_color, low_color, high_color].map(color_word));
    words.extend([*has_low, *has_high, *zero_is_nodata].map(u64::from));
    let LegendLinear { start, end, cmap } = linear;
    words.extend([*start, *end].map(float_word));
    words.extend(cmap.iter().map(color_word));
    let LegendBanded { bands, count } = banded;
    words.push(*count as u64);
    let band_words = |LegendBand { start, end, color }: &_| [float_word(*start), float_word(*end), color_word(color)];
    words.extend(bands.iter().flat_map(band_words));
    let LegendCategoric { keys, colors, count, lookup, lookup_count } = categoric;
    words.extend([*count as u64, *lookup_count as u64]);
    words.extend(keys.map(|key| key as u64));
    words.extend(colors.iter().chain(lookup).map(color_word));
}

/// A result, or a refusal in its place, as words.
fn said<T>(answer: Result<T, Refused>, words: &mut Vec<u64>) -> Option<T> {
    words.extend(answer.as_ref().err().unwrap_or(&DONE));
    answer.ok()
}

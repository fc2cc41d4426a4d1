//! Legends to ask for, at random: counts at the limits, bounds that are near to each other, and numbers of every kind.

use super::samples::{FAR, float, near};
use super::{Asked, Entries, Job, is_empty};
use crate::random::Random;
use oracle::{Colors as From, Config};

/// Which legends are asked for.
#[derive(Debug, Clone, Copy, PartialEq, Eq)]
pub enum Kinds {
    Linear,
    EqualBands,
    ManualRanges,
    BandsAsGiven,
    Values,
    KeyRange,
    Stored,
    /// All of them, and counts within the limits.
    All,
}

/// Counts at which something changes: none, one, the capacities and their neighbours.
const COUNTS: [usize; 11] = [0, 1, 2, 3, 63, 64, 65, 255, 256, 257, 300];

struct Asking<'a> {
    random: &'a mut Random,
    /// No count is above it.
    most: usize,
}

/// A legend at random.
pub fn ask(random: &mut Random, kinds: Kinds) -> Asked {
    let all = [Kinds::Linear, Kinds::EqualBands, Kinds::ManualRanges, Kinds::BandsAsGiven, Kinds::Values];
    let all = [&all[..], &[Kinds::KeyRange, Kinds::Stored]].concat();
    let kind = if kinds == Kinds::All { random.one_of(&all) } else { kinds };
    let banded = matches!(kind, Kinds::EqualBands | Kinds::ManualRanges | Kinds::BandsAsGiven);
    let most = match kinds {
        Kinds::All if banded => 64,
        Kinds::All => 256,
        _ => usize::MAX,
    };
    let config = config(random);
    let mut asking = Asking { random, most };
    let job = match kind {
        Kinds::Linear => asking.linear(),
        Kinds::EqualBands => asking.equal_bands(),
        Kinds::ManualRanges => asking.manual_ranges(),
        Kinds::BandsAsGiven => asking.bands_as_given(),
        Kinds::Values => asking.values(),
        Kinds::KeyRange => asking.key_range(),
        Kinds::Stored | Kinds::All => asking.stored(),
    };
    Asked { job, config }
}

fn config(random: &mut Random) -> Config {
    let mut maybe = |word: u32| random.once_in(2).then_some(word);
    let (low, high) = (maybe(0xff00_0002), maybe(0xff00_0003));
    Config {
        nodata_color: if random.once_in(4) { 0 } else { 0x8000_0001 },
        low,
        high,
        zero_is_nodata: random.once_in(3),
    }
}

impl Asking<'_> {
    /// Few most of the time, so that much can be run, and counts at the limits.
    fn count(&mut self) -> usize {
        let count = match self.random.below(4) {
            0 => self.random.one_of(&COUNTS),
            1 => self.random.below(70) as usize,
            _ => self.random.below(12) as usize,
        };
        count.min(self.most)
    }

    fn word(&mut self) -> u32 {
        u32::from_le_bytes(std::array::from_fn(|_| self.random.byte()))
    }

    fn entries(&mut self) -> Entries {
        Entries(self.word())
    }

    fn words(&mut self, count: usize) -> Vec<u32> {
        (0..count).map(|_| self.word()).collect()
    }

    /// As many colours as `count`, or a preset; one list in sixteen has another length.
    fn colors(&mut self, count: usize) -> From {
        if self.random.once_in(3) {
            return self.preset();
        }
        let other = self.random.once_in(16);
        let count = if other { self.count() } else { count };
        From::List(self.words(count))
    }

    fn preset(&mut self) -> From {
        From::Preset(self.random.below(oracle::preset_count() as u64) as usize, self.random.once_in(2))
    }

    /// Two bounds: most often in order, often near to each other, sometimes any two.
    fn bounds(&mut self) -> (f32, f32) {
        if self.random.once_in(8) {
            return self.random.one_of(&[(0.0, 1.0), (0.0, 255.0)]);
        }
        let start = float(self.random);
        let end = match self.random.below(8) {
            0 => float(self.random),
            1 => near(self.random, start),
            _ => start + float(self.random).abs(),
        };
        (start, end)
    }

    fn linear(&mut self) -> Job {
        let (start, end) = self.bounds();
        match self.random.below(3) {
            0 => Job::Linear { colors: self.preset(), start, end },
            1 => {
                let count = self.count();
                let words = self.words(count).into_iter().map(|word| word | 0xff00_0000).collect();
                Job::Linear { colors: From::List(words), start, end }
            }
            _ => Job::LinearOverEntries { entries: self.entries(), start, end },
        }
    }

    fn equal_bands(&mut self) -> Job {
        let (count, (start, end)) = (self.count(), self.bounds());
        Job::EqualBands { count, colors: self.colors(count), start, end }
    }

    /// Ranges that follow on each other, with gaps, touching, or thinner than E; in some lists one is any pair.
    fn ranges(&mut self) -> Vec<(f32, f32)> {
        let mut at = float(self.random);
        let thin = self.random.once_in(4);
        let mut ranges: Vec<(f32, f32)> = (0..self.count())
            .map(|_| {
                let width = if thin { 3e-5 } else { float(self.random).abs() };
                let start = at + if self.random.once_in(4) { width } else { 0.0 };
                at = start + width.max(f32::MIN_POSITIVE);
                (start, at)
            })
            .collect();
        if self.random.once_in(4) && !ranges.is_empty() {
            let place = self.random.below(ranges.len() as u64) as usize;
            ranges[place] = self.bounds();
        }
        ranges
    }

    fn manual_ranges(&mut self) -> Job {
        let mut ranges = self.ranges();
        // A range that is refused makes the whole job one refusal, so most jobs have none.
        if !self.random.once_in(6) {
            ranges.retain(|range| !is_empty(range));
        }
        let colors = self.colors(ranges.len());
        Job::ManualRanges { ranges, colors }
    }

    /// Bands that overlap, that end below their start, in any order: no builder makes most of them.
    fn bands_as_given(&mut self) -> Job {
        let mut ranges = if self.random.once_in(2) { self.ranges() } else { vec![] };
        if ranges.is_empty() {
            let (count, around) = (self.count(), float(self.random));
            let mut bound =
                || if self.random.once_in(4) { near(self.random, around) } else { around + float(self.random) };
            ranges = (0..count).map(|_| (bound(), bound())).collect();
        }
        Job::BandsAsGiven { bands: ranges.into_iter().map(|(start, end)| (start, end, self.word())).collect() }
    }

    /// Keys that have a table, that just have none, negative ones, ones at the limits, or near to one of them.
    fn key(&mut self, style: u64) -> i64 {
        let of = |random: &mut Random, from: i64, count: u64| from + random.below(count) as i64;
        match style {
            0 => of(self.random, 0, 513),
            1 => of(self.random, 0, 8),
            2 => of(self.random, 500, 14),
            3 => of(self.random, -300, 900),
            4 => self.random.one_of(&[-FAR, FAR, FAR - 1, 0, 5]) + of(self.random, 0, 2),
            5 => match self.random.below(4) {
                0 => self.random.one_of(&[i64::MIN, i64::MAX, -FAR - 1, FAR + 1]),
                _ => of(self.random, -FAR, 33_554_433),
            },
            6 => of(self.random, FAR - 40, 41),
            _ => of(self.random, -FAR, 41),
        }
    }

    fn style(&mut self) -> u64 {
        // Keys that are refused are of no use where the legend is to be used.
        self.random.one_of(if self.most == usize::MAX { &[0, 1, 2, 3, 4, 5, 5, 5, 6, 7] } else { &[0, 1, 2, 3, 6, 7] })
    }

    fn values(&mut self) -> Job {
        let (count, style) = (self.count(), self.style());
        let values: Vec<i64> = (0..count).map(|_| self.key(style)).collect();
        Job::Values { colors: self.colors(values.len()), values }
    }

    fn key_range(&mut self) -> Job {
        let (count, style) = (self.count() as i64, self.style());
        let start = self.key(style);
        let end = match self.random.below(16) {
            0 => start.wrapping_sub(self.random.below(4) as i64),
            1 => self.key(style),
            2 if self.most == usize::MAX => self.random.one_of(&[i64::MIN, i64::MAX, -1, 0]),
            _ => start.wrapping_add(count - 1),
        };
        Job::KeyRange { start, end, colors: self.colors(count as usize) }
    }

    /// A record that no builder makes.
    fn stored(&mut self) -> Job {
        if self.random.once_in(3) {
            let (end, start) = self.bounds();
            return Job::StoredLinear { entries: self.entries(), start, end };
        }
        let (count, style) = (self.count().min(256), self.random.below(8));
        let mut categories: Vec<(i64, u32)> = vec![];
        for _ in 0..count {
            let key = self.key(style);
            // The reference holds no key twice.
            if categories.iter().all(|(other, _)| *other != key) {
                categories.push((key, self.word()));
            }
        }
        let length = self.random.one_of(&[1, 2, 17, 256, 512, 513]);
        let table = self.random.once_in(2).then(|| self.words(length));
        Job::StoredCategories { categories, table }
    }
}

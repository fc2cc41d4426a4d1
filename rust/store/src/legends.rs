//! Rows of legends: what they are built from, the samples, and every painting of these.

use crate::leaves::{answered, colors};
use crate::random::Random;
use crate::row::*;
use crate::rules;
use oracle::{Answer, Colors, Config, Legend, Ramp, Record, Sample};

const E: f32 = 1e-4;

/// The fraction whose entry differs in lanes.
const UNLIKE: f32 = f32::from_bits(0x3b00_8080);

/// The kinds, by turns: five of builders, and three of records that are stored as given.
const KINDS: [Kind; 8] = [
    Kind::Linear,
    Kind::EqualBands,
    Kind::ManualRanges,
    Kind::Categories,
    Kind::CategoryRange,
    Kind::Bands,
    Kind::LinearStored,
    Kind::CategoriesStored,
];

/// A legend of the kind that the number names.
pub fn row(number: u64, random: &mut Random) -> Row {
    let kind = KINDS[number as usize % KINDS.len()];
    let mut row = Row::new(kind);
    let config = config(&mut row, random);
    let (answer, edges) = match kind {
        Kind::Linear => linear(&mut row, random, config),
        Kind::EqualBands => equal_bands(&mut row, random, config),
        Kind::ManualRanges => manual_ranges(&mut row, random, config),
        Kind::Bands => bands(&mut row, random, config),
        Kind::Categories => categories(&mut row, random, config),
        Kind::CategoryRange => category_range(&mut row, random, config),
        Kind::LinearStored => linear_stored(&mut row, random, config),
        _ => categories_stored(&mut row, random, config),
    };
    let count = if random.once_in(2) { SAMPLES_MOST } else { random.below(SAMPLES_MOST as u64 + 1) as usize };
    row.set(SAMPLE_COUNT, count as u32);
    let legend = answered(&mut row, answer, rules::empty_range(&edges));
    if let Some(legend) = &legend {
        let (start, end) = legend.total_value_range();
        row.set_all(RANGE, [bits(start), bits(end)]);
        row.set_all(COLOR_LIST, legend.color_list());
        record(&mut row, legend.record(), config);
    }
    let samples: Vec<f32> = (0..count).map(|_| sample(random, &edges)).collect();
    let nodata = random.once_in(2).then(|| sample(random, &[samples.first().copied().unwrap_or(7.0)]));
    match random.below(4) {
        0 => painted(&mut row, legend, 1, samples, nodata, |x| x as u8, u32::from),
        1 => painted(&mut row, legend, 2, samples, nodata, |x| x as i16, |x| u32::from(x as u16)),
        _ => painted(&mut row, legend, 0, samples, nodata, |x| x, bits),
    }
    row
}

/// The settings.
fn config(row: &mut Row, random: &mut Random) -> Config {
    let config = Config {
        nodata_color: if random.once_in(3) { 0 } else { random.color() },
        low: random.once_in(2).then(|| random.color()),
        high: random.once_in(2).then(|| random.color()),
        zero_is_nodata: random.once_in(3),
    };
    row.set(NODATA_COLOR, config.nodata_color);
    row.set(FLAGS, flags(&config));
    row.set(LOW, config.low.unwrap_or(0));
    row.set(HIGH, config.high.unwrap_or(0));
    config
}

fn flags(config: &Config) -> u32 {
    config.low.is_some() as u32 + 2 * config.high.is_some() as u32 + 4 * config.zero_is_nodata as u32
}

/// The samples of a type, the nodata value, and what the legend paints.
fn painted<T: Sample>(
    row: &mut Row,
    legend: Option<Legend>,
    number: u32,
    samples: Vec<f32>,
    nodata: Option<f32>,
    cast: fn(f32) -> T,
    word: fn(T) -> u32,
) {
    let samples: Vec<T> = samples.into_iter().map(cast).collect();
    let nodata = nodata.map(cast);
    row.set(SAMPLE_TYPE, number);
    row.set_all(SAMPLES, samples.iter().map(|&sample| word(sample)));
    row.set(NODATA, nodata.map_or(0, word));
    row.0[FLAGS] += 8 * nodata.is_some() as u32;
    if let Some(legend) = &legend {
        row.set_all(VALUES, samples.iter().map(|&sample| legend.color_for_value(sample, nodata)));
        row.set_all(PLAIN, legend.paint(&samples, nodata));
    }
    for (lanes, place, scratch) in LANES {
        let colors =
            legend.as_ref().map_or(vec![0; samples.len()], |legend| legend.paint_simd(lanes, &samples, nodata));
        row.set_all(scratch, rules::scratch(lanes, legend.as_ref(), &colors));
        row.set_all(place, colors);
    }
}

/// What the legend holds: ten words, and the arrays of its kind.
fn record(row: &mut Row, record: Record, config: Config) {
    row.set_all(RECORD + 1, [config.nodata_color, flags(&config), config.low.unwrap_or(0), config.high.unwrap_or(0)]);
    match record {
        Record::Linear { start, end, ramp } => {
            row.set_all(RECORD + 5, [bits(start), bits(end)]);
            row.set_all(ARRAYS, *ramp);
        }
        Record::Banded(bands) => {
            row.set(RECORD, 1);
            row.set(RECORD + 7, bands.len() as u32);
            row.set_all(ARRAYS, bands.iter().map(|band| bits(band.0)));
            row.set_all(ARRAYS + 64, bands.iter().map(|band| bits(band.1)));
            row.set_all(ARRAYS + 128, bands.iter().map(|band| band.2));
        }
        Record::Categoric { mut categories, table } => {
            if row.0[0] == Kind::CategoriesStored as u32 {
                // The reference keeps keys in a sorted map; the record has them in the order that the row gives.
                categories
                    .sort_by_key(|&(x, _)| row.0[NUMBERS..NUMBERS + LIST].iter().position(|&word| word == key(x)));
            }
            row.set(RECORD, 2);
            row.set(RECORD + 8, categories.len() as u32);
            row.set(RECORD + 9, table.as_ref().map_or(0, |table| table.len() as u32));
            row.set_all(ARRAYS, categories.iter().map(|category| key(category.0)));
            row.set_all(ARRAYS + 256, categories.iter().map(|category| category.1));
            row.set_all(ARRAYS + 512, table.into_iter().flatten());
        }
    }
}

/// A sample: near to an edge, between two of them, about them, or special.
fn sample(random: &mut Random, edges: &[f32]) -> f32 {
    let edge = if edges.is_empty() { 0.0 } else { random.one_of(edges) };
    let other = if edges.is_empty() { 10.0 } else { random.one_of(edges) };
    match random.below(8) {
        0 => random.special(),
        1 => edge,
        2 => neighbour(random, edge),
        3 => {
            let near = edge + random.one_of(&[E, -E, 0.5 * E, -0.5 * E, 2.0 * E, -2.0 * E]);
            neighbour(random, near)
        }
        4 => edge + random.between(-20.0, 20.0),
        5 => random.between(-50.0, 600.0),
        _ => random.between(edge, other),
    }
}

/// The float, or the next one above or below it.
fn neighbour(random: &mut Random, x: f32) -> f32 {
    match random.below(3) {
        0 => x.next_up(),
        1 => x.next_down(),
        _ => x,
    }
}

/// A bound of a legend, mostly an ordinary one.
fn bound(random: &mut Random) -> f32 {
    match random.below(12) {
        0 => random.special(),
        1..=5 => random.below(200) as f32 - 50.0,
        6 => random.between(-1e-3, 1e-3),
        _ => random.between(-100.0, 300.0),
    }
}

/// Two bounds, mostly in order.
fn bounds(random: &mut Random) -> (f32, f32) {
    let (x, y) = (bound(random), bound(random));
    match random.below(16) {
        0 => (x, x),
        1 => (x, neighbour(random, x)),
        2 => (x, y),
        _ => (x.min(y), x.max(y)),
    }
}

type Built = (Answer<Legend>, Vec<f32>);

fn linear(row: &mut Row, random: &mut Random, config: Config) -> Built {
    let from = colors(row, random, 2, true);
    let (start, end) = if random.once_in(6) { (0.0, 1.0) } else { bounds(random) };
    row.set_all(NUMBERS, [bits(start), bits(end)]);
    (Legend::linear(&from, start, end, config), vec![start, end, UNLIKE])
}

fn equal_bands(row: &mut Row, random: &mut Random, config: Config) -> Built {
    let count = if random.once_in(4) { random.below(65) as usize } else { random.below(17) as usize };
    let from = colors(row, random, count, false);
    let (start, end) = bounds(random);
    row.set(COUNT, count as u32);
    row.set_all(NUMBERS, [bits(start), bits(end)]);
    let step = (end - start) / count as f32;
    let edges = (0..=count.min(64)).map(|i| start + i as f32 * step).collect();
    (Legend::equal_bands(count, &from, start, end, config), edges)
}

/// Ranges one after the other, with gaps and overlaps, and now and then an empty one.
fn ranges(random: &mut Random) -> Vec<(f32, f32)> {
    let count = random.below(LIST as u64 + 1) as usize;
    let mut at = bound(random);
    let wrong = if random.once_in(8) { 4 } else { 1 << 40 };
    let mut range = |_| {
        let start = at;
        at += match random.below(6) {
            0 => 0.00005,
            1 => random.between(0.0, 1e-3),
            _ => random.between(0.0, 30.0),
        };
        let end = if random.once_in(wrong) {
            random.one_of(&[start, start - 1.0, f32::NAN])
        } else {
            at.max(start.next_up())
        };
        at = end;
        at += random.one_of(&[0.0, 0.0, 0.0, 0.0, 3.0, -0.3]);
        (start, end)
    };
    (0..count).map(&mut range).collect()
}

fn edges(ranges: &[(f32, f32)]) -> Vec<f32> {
    ranges.iter().flat_map(|&(start, end)| [start, end]).collect()
}

fn manual_ranges(row: &mut Row, random: &mut Random, config: Config) -> Built {
    let ranges = ranges(random);
    let from = colors(row, random, ranges.len(), false);
    row.set(COUNT, ranges.len() as u32);
    row.set_all(NUMBERS, edges(&ranges).into_iter().map(bits));
    (Legend::manual_ranges(&ranges, &from, config), edges(&ranges))
}

/// Bands as given: their colours are the list.
fn bands(row: &mut Row, random: &mut Random, config: Config) -> Built {
    let ranges = ranges(random);
    let list: Vec<u32> = ranges.iter().map(|_| random.color()).collect();
    row.set(SOURCE, 32);
    row.set(LIST_COUNT, list.len() as u32);
    row.set_all(COLORS, list.iter().copied());
    row.set(COUNT, ranges.len() as u32);
    row.set_all(NUMBERS, edges(&ranges).into_iter().map(bits));
    let bands: Vec<(f32, f32, u32)> =
        ranges.iter().zip(&list).map(|(&(start, end), &color)| (start, end, color)).collect();
    (Ok(Legend::bands(&bands, config)), edges(&ranges))
}

/// The largest key that the library takes, and the largest of a table.
const LARGEST: i64 = 1 << 24;
const LARGEST_TABLED: i64 = 512;

fn categories(row: &mut Row, random: &mut Random, config: Config) -> Built {
    let count = random.below(LIST as u64 + 1) as usize;
    let form = random.below(4);
    let keys: Vec<i64> = (0..count)
        .map(|_| match form {
            0 => random.below(12) as i64,
            1 => random.below(LARGEST_TABLED as u64 + 1) as i64,
            2 => random.one_of(&[0, 1, LARGEST_TABLED - 1, LARGEST_TABLED, LARGEST_TABLED + 1, -1, LARGEST, -LARGEST]),
            _ => random.below(40) as i64 - 10,
        })
        .collect();
    let from = colors(row, random, count, false);
    row.set(COUNT, count as u32);
    row.set_all(NUMBERS, keys.iter().map(|&x| key(x)));
    let edges = keys.iter().map(|&x| x as f32).collect();
    (Legend::categories(&keys, &from, config), edges)
}

fn category_range(row: &mut Row, random: &mut Random, config: Config) -> Built {
    let start = match random.below(4) {
        0 => random.one_of(&[0, LARGEST_TABLED - 10, LARGEST_TABLED, -LARGEST, LARGEST - 300]),
        1 => random.below(60) as i64 - 30,
        _ => random.below(LARGEST_TABLED as u64) as i64,
    };
    let count = match random.below(4) {
        0 => random.below(257) as i64,
        1 => random.below(6) as i64 - 3,
        _ => random.below(LIST as u64 + 1) as i64,
    };
    let end = start + count - 1;
    let from = colors(row, random, count.max(0) as usize, false);
    row.set_all(NUMBERS, [key(start), key(end)]);
    let edges = vec![start as f32, end as f32, start as f32 + 1.0, 0.0, -1.0];
    (Legend::category_range(start, end, &from, config), edges)
}

/// A record whose start may be above its end, now and then by less than E.
fn linear_stored(row: &mut Row, random: &mut Random, config: Config) -> Built {
    let number = random.below(32) as usize;
    let ramp = Ramp::create(&Colors::Preset(number, false)).expect("a palette has a ramp").entries();
    let start = bound(random);
    let end = if random.once_in(3) { start - random.between(0.0, E) } else { bound(random) };
    row.set(SOURCE, number as u32);
    row.set_all(NUMBERS, [bits(start), bits(end)]);
    (Ok(Legend::linear_stored(&ramp, start, end, config)), vec![start, end])
}

/// Different keys in any order, with a table of up to sixteen words or none.
fn categories_stored(row: &mut Row, random: &mut Random, config: Config) -> Built {
    let mut categories: Vec<(i64, u32)> = Vec::new();
    for _ in 0..random.below(LIST as u64 + 1) {
        let key = random.below(40) as i64 - 10;
        if categories.iter().all(|&(other, _)| other != key) {
            categories.push((key, random.color()));
        }
    }
    let table: Option<Vec<u32>> =
        random.once_in(2).then(|| (0..=random.below(LIST as u64)).map(|_| random.color()).collect());
    row.set(COUNT, categories.len() as u32);
    row.set_all(NUMBERS, categories.iter().map(|&(x, _)| key(x)));
    row.set_all(COLORS, categories.iter().map(|&(_, color)| color));
    row.set_all(TABLE, table.iter().flatten().copied());
    row.set(TABLE_COUNT, table.as_ref().map_or(0, |table| table.len() as u32));
    let edges = categories.iter().map(|&(x, _)| x as f32).chain([0.0, 15.0, 16.0]).collect();
    (Ok(Legend::categories_stored(&categories, table, config)), edges)
}

//! docs/RULES.md read a second time, over records as C has them, with any counts, keys and words. It shares nothing with
//! the library but the record, and is written sample by sample, with no care for speed.

use legend::ffi::{LegendBand, LegendRecord, LegendSettings};

/// A number of the table, or of the C interface, with its index.
#[derive(Debug, Clone, Copy, PartialEq, Eq)]
pub struct Refused {
    pub number: u32,
    pub index: Option<usize>,
}

type Answer<T> = Result<T, Refused>;

/// A refusal without an index, if a condition holds.
pub(crate) fn refuse_if(condition: bool, number: u32) -> Answer<()> {
    if condition { Err(Refused { number, index: None }) } else { Ok(()) }
}

/// E of the rules.
const E: f32 = 1e-4;

/// The keys that builders take.
const KEYS: std::ops::RangeInclusive<i64> = -16_777_216..=16_777_216;

/// 100 and 101: flags of the record first, then its kind.
pub(crate) fn form(legend: &LegendRecord) -> Answer<()> {
    let LegendSettings { has_low, has_high, zero_is_nodata, .. } = legend.settings;
    refuse_if([has_low, has_high, zero_is_nodata].iter().any(|flag| *flag > 1), 100)?;
    refuse_if(legend.kind > 2, 101)
}

/// 16: of the counts those of the kind count.
pub(crate) fn stored(legend: &LegendRecord) -> Answer<()> {
    let above = match legend.kind {
        0 => false,
        1 => legend.banded.count > 64,
        _ => legend.categoric.count > 256 || legend.categoric.lookup_count > 513,
    };
    refuse_if(above, 16)
}

/// What every use with a nodata value refuses first.
fn usable(legend: &LegendRecord, nodata_given: u32) -> Answer<()> {
    form(legend)?;
    refuse_if(nodata_given > 1, 100)?;
    stored(legend)
}

/// A look-up: plainly the nearest entry, halves up; in lanes the floor of a sum that is rounded to f32.
pub fn lookup(ramp: &[u32; 256], fraction: f32, lanes: bool) -> u32 {
    if !(0.0..=1.0).contains(&fraction) {
        return 0;
    }
    let place = fraction * 255.0;
    let entry =
        if lanes { (place + 0.5).floor().min(255.0) as usize } else { (f64::from(place) + 0.5).floor() as usize };
    ramp[entry]
}

/// Samples painted by one legend: its parts as plain words, with what is absent filled in.
struct Painter<'a> {
    legend: &'a LegendRecord,
    nodata: Option<f32>,
    ramp: [u32; 256],
    bands: &'a [LegendBand],
    low: u32,
    high: u32,
}

impl<'a> Painter<'a> {
    /// Of a legend that nothing refuses.
    fn new(legend: &'a LegendRecord, nodata: Option<f32>) -> Painter<'a> {
        let settings = &legend.settings;
        let ramp = legend.linear.cmap.map(|color| color.word());
        let bands = if legend.kind == 1 { &legend.banded.bands[..legend.banded.count] } else { &[] };
        let band = |band: Option<&LegendBand>| band.map_or(settings.nodata_color, |band| band.color).word();
        let (low, high) = match legend.kind {
            0 => (lookup(&ramp, 0.0, false), lookup(&ramp, 1.0, false)),
            1 => (band(bands.first()), band(bands.last())),
            _ => (settings.nodata_color.word(), settings.nodata_color.word()),
        };
        let low = if settings.has_low == 1 { settings.low_color.word() } else { low };
        let high = if settings.has_high == 1 { settings.high_color.word() } else { high };
        Painter { legend, nodata, ramp, bands, low, high }
    }

    fn nodata_color(&self) -> u32 {
        self.legend.settings.nodata_color.word()
    }

    fn is_unmappable(&self, value: f32) -> bool {
        let zero = self.legend.settings.zero_is_nodata == 1 && value == 0.0;
        value.is_nan() || self.nodata == Some(value) || zero
    }

    fn linear(&self, value: f32, lanes: bool) -> u32 {
        let (start, end) = (self.legend.linear.start, self.legend.linear.end);
        if value < start - E {
            return self.low;
        }
        if value > end + E {
            return self.high;
        }
        let fraction = match () {
            () if !lanes && start > end => 0.0,
            () if value <= start => 0.0,
            () if value >= end => 1.0,
            () => (value - start) / (end - start),
        };
        lookup(&self.ramp, fraction, lanes)
    }

    fn banded(&self, value: f32) -> u32 {
        let (Some(first), Some(last)) = (self.bands.first(), self.bands.last()) else { return self.nodata_color() };
        match self.bands.iter().find(|band| holds(band, value)) {
            Some(band) => band.color.word(),
            None if is_within(value, first.start) => first.color.word(),
            None if value < first.start => self.low,
            None if is_within(value, last.end) => last.color.word(),
            None if value > last.end => self.high,
            None => self.nodata_color(),
        }
    }

    fn categoric(&self, value: f32) -> u32 {
        let categoric = &self.legend.categoric;
        // 2^63 is an f32, and every f32 from -2^63 to below it is cut exactly.
        let limit = 2f32.powi(63);
        if !(-limit..limit).contains(&value) {
            return self.nodata_color();
        }
        let key = value as i64;
        let found = if categoric.lookup_count > 0 {
            let table = &categoric.lookup[..categoric.lookup_count];
            usize::try_from(key).ok().and_then(|place| table.get(place)).copied()
        } else {
            let place = categoric.keys[..categoric.count].iter().position(|other| *other == key);
            place.map(|place| categoric.colors[place])
        };
        found.map_or(self.nodata_color(), |color| color.word())
    }

    /// The plain rule.
    fn color(&self, value: f32) -> u32 {
        match self.legend.kind {
            _ if self.is_unmappable(value) => self.nodata_color(),
            0 => self.linear(value, false),
            1 => self.banded(value),
            _ => self.categoric(value),
        }
    }

    /// The lane rule of bands, over a whole chunk.
    fn banded_lanes(&self, chunk: &[f32]) -> Vec<u32> {
        let mut colors = vec![self.nodata_color(); chunk.len()];
        let (Some(first), Some(last)) = (self.bands.first(), self.bands.last()) else { return colors };
        let mut held = vec![false; chunk.len()];
        for band in self.bands {
            for lane in (0..chunk.len()).filter(|&lane| holds(band, chunk[lane])) {
                (colors[lane], held[lane]) = (band.color.word(), true);
            }
            if held.iter().all(|held| *held) {
                return colors;
            }
        }
        for (color, &value) in colors.iter_mut().zip(chunk) {
            if value < first.start {
                *color = self.low;
            }
            if value > last.end {
                *color = self.high;
            }
            if is_within(value, first.start) {
                *color = first.color.word();
            }
            if is_within(value, last.end) {
                *color = last.color.word();
            }
        }
        colors
    }

    fn chunk(&self, chunk: &[f32]) -> Vec<u32> {
        let colors: Vec<u32> = match self.legend.kind {
            0 => chunk.iter().map(|&value| self.linear(value, true)).collect(),
            1 => self.banded_lanes(chunk),
            _ => chunk.iter().map(|&value| self.categoric(value)).collect(),
        };
        let nodata = self.nodata_color();
        let lane = |(color, &value): (u32, &f32)| if self.is_unmappable(value) { nodata } else { color };
        colors.into_iter().zip(chunk).map(lane).collect()
    }
}

fn holds(band: &LegendBand, value: f32) -> bool {
    band.start <= value && value < band.end
}

fn is_within(value: f32, edge: f32) -> bool {
    (value - edge).abs() < E
}

/// The nodata value where its flag says that there is one.
fn nodata_if(given: u32, nodata: f32) -> Option<f32> {
    (given == 1).then_some(nodata)
}

/// The colour of a sample.
pub fn color_for(legend: &LegendRecord, value: f32, given: u32, nodata: f32) -> Answer<u32> {
    usable(legend, given)?;
    Ok(Painter::new(legend, nodata_if(given, nodata)).color(value))
}

/// Plain painting into an output.
pub fn paint(legend: &LegendRecord, raster: &[f32], given: u32, nodata: f32, out: &mut [u32]) -> Answer<()> {
    usable(legend, given)?;
    refuse_if(out.len() != raster.len(), 13)?;
    let painter = Painter::new(legend, nodata_if(given, nodata));
    raster.iter().zip(out).for_each(|(&value, place)| *place = painter.color(value));
    Ok(())
}

/// Painting in lanes.
pub fn paint_lanes(
    legend: &LegendRecord,
    lanes: usize,
    raster: &[f32],
    given: u32,
    nodata: f32,
    out: &mut [u32],
    scratch: &mut [u32],
) -> Answer<()> {
    usable(legend, given)?;
    refuse_if(![4, 8, 16].contains(&lanes), 14)?;
    refuse_if(scratch.len() < 16, 15)?;
    refuse_if(out.len() != raster.len(), 13)?;
    if legend.kind == 2 && legend.categoric.lookup_count == 0 {
        return paint(legend, raster, given, nodata, out);
    }
    let painter = Painter::new(legend, nodata_if(given, nodata));
    let whole = raster.len() / lanes * lanes;
    for (chunk, places) in raster[..whole].chunks(lanes).zip(out.chunks_mut(lanes)) {
        places.copy_from_slice(&painter.chunk(chunk));
        scratch[..lanes].copy_from_slice(places);
    }
    raster[whole..].iter().zip(&mut out[whole..]).for_each(|(&value, place)| *place = painter.color(value));
    Ok(())
}

/// The whole range of a legend's values.
pub fn total_value_range(legend: &LegendRecord) -> Answer<(f32, f32)> {
    form(legend)?;
    stored(legend)?;
    Ok(match legend.kind {
        0 => (legend.linear.start, legend.linear.end),
        1 => match &legend.banded.bands[..legend.banded.count] {
            [first, .., last] => (first.start, last.end),
            [only] => (only.start, only.end),
            [] => (0.0, 0.0),
        },
        _ => {
            let keys = &legend.categoric.keys[..legend.categoric.count];
            if let Some(first) = keys.iter().position(|key| !KEYS.contains(key)) {
                return Err(Refused { number: 17, index: Some(first) });
            }
            let end = |key: Option<&i64>| key.map_or(0.0, |key| *key as f32);
            (end(keys.iter().min()), end(keys.iter().max()))
        }
    })
}

/// The list of a legend's colours.
pub fn color_list(legend: &LegendRecord) -> Answer<[u32; 256]> {
    let (start, end) = total_value_range(legend)?;
    let painter = Painter::new(legend, None);
    Ok(std::array::from_fn(|i| painter.color(start + (end - start) * (i as f32 / 255.0))))
}

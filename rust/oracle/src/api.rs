//! The calls.

use crate::*;

/// What the text said in place of a result.
#[derive(Debug, Clone, PartialEq, Eq)]
pub struct Refused(pub String);

/// The beginnings of the text's messages, with the numbers of the table of refusals.
const SAID: [(&str, u32); 8] = [
    ("Empty color string", 1),
    ("Invalid color string", 2),
    ("Invalid hex color value", 3),
    ("Color list must contain at least 2 colors", 4),
    ("Invalid linear color mapper value range", 7),
    ("Invalid banded color mapper value range", 7),
    ("Color list length does not match", 9),
    ("Invalid range", 10),
];

impl Refused {
    /// The refusal's number in the table, by the words of the message. An index is not in them.
    pub fn number(&self) -> u32 {
        let said = SAID.iter().find(|(words, _)| self.0.starts_with(words));
        said.unwrap_or_else(|| panic!("no refusal of the table: {}", self.0)).1
    }
}

impl fmt::Display for Refused {
    fn fmt(&self, f: &mut fmt::Formatter<'_>) -> fmt::Result {
        f.write_str(&self.0)
    }
}

impl From<Error> for Refused {
    fn from(error: Error) -> Refused {
        match error {
            Error::InvalidArgument(message) | Error::Runtime(message) => Refused(message),
        }
    }
}

pub type Answer<T> = std::result::Result<T, Refused>;

/// `Color::from_hex_string`.
pub fn hex(text: &str) -> Answer<u32> {
    text_says!(Ok(Color::from_hex_string(text)?.to_bits()))
}

/// `ToPrimitive::to_i64` of the crate num, by which the text truncates a sample to a key.
pub fn to_i64(value: f32) -> Option<i64> {
    num::ToPrimitive::to_i64(&value)
}

/// The colours of a palette, 0 to 31.
pub fn palette(number: usize) -> Vec<u32> {
    text_says!(words(colormap::reach::PALETTES[number].1))
}

/// How many palettes there are, and their names.
pub fn palette_names() -> Vec<&'static str> {
    text_says!(colormap::reach::PALETTES.iter().map(|palette| palette.0).collect())
}

/// How many presets there are. The first 32 are the palettes, in their order; the others stand after them.
pub fn preset_count() -> usize {
    text_says!(colormap::reach::presets().len())
}

#[cfg(text)]
fn words(colors: &[Color]) -> Vec<u32> {
    colors.iter().map(|color| color.to_bits()).collect()
}

#[cfg(text)]
fn colors(words: &[u32]) -> Vec<Color> {
    words.iter().map(|&word| Color::from(word)).collect()
}

/// A ramp, `ProcessedColorMap`.
#[derive(Clone)]
pub struct Ramp {
    #[cfg(text)]
    map: colormap::ProcessedColorMap<256>,
}

impl Ramp {
    /// `ProcessedColorMap::create` of a list of colours.
    pub fn from_list(list: &[u32]) -> Answer<Ramp> {
        Ramp::create(&Colors::List(list.to_vec()))
    }

    /// `ProcessedColorMap::create` of a list or a preset.
    pub fn create(from: &Colors) -> Answer<Ramp> {
        text_says!(Ok(Ramp { map: colormap::ProcessedColorMap::create(&from.map())? }))
    }

    /// `ProcessedColorMap::from_color_array`: a ramp that is lent ready-made.
    pub fn ready_made(entries: &[u32; 256]) -> Ramp {
        text_says!(Ramp {
            map: colormap::ProcessedColorMap::from_color_array(
                entries.map(Color::from),
                colormap::ColorMapDirection::Regular
            )
        })
    }

    /// Its entries.
    pub fn entries(&self) -> [u32; 256] {
        text_says!(colormap::reach::entries(&self.map).map(Color::to_bits))
    }

    /// `get_color`.
    #[inline]
    pub fn get_color(&self, fraction: f32) -> u32 {
        text_says!(self.map.get_color(fraction).to_bits())
    }

    /// `get_color_simd` of 4, 8 or 16 lanes, over whole chunks of that many.
    pub fn get_color_simd(&self, lanes: usize, fractions: &[f32], out: &mut [u32]) {
        text_says!(match lanes {
            4 => colormap::reach::get_color_simd(&self.map, fearless_simd::Lanes::<4>, fractions, out),
            8 => colormap::reach::get_color_simd(&self.map, fearless_simd::Lanes::<8>, fractions, out),
            16 => colormap::reach::get_color_simd(&self.map, fearless_simd::Lanes::<16>, fractions, out),
            _ => panic!("no lane count: {lanes}"),
        })
    }
}

/// Where a builder takes its colours from.
#[derive(Debug, Clone, PartialEq)]
pub enum Colors {
    /// A list of colours.
    List(Vec<u32>),
    /// A preset's number, and whether its ramp is reversed.
    Preset(usize, bool),
}

#[cfg(text)]
impl Colors {
    fn map(&self) -> colormap::ColorMap {
        use colormap::ColorMapDirection::{Regular, Reversed};
        match self {
            Colors::List(list) => colormap::ColorMap::ColorList(colors(list)),
            Colors::Preset(number, reversed) => {
                let direction = if *reversed { Reversed } else { Regular };
                colormap::ColorMap::Preset(colormap::reach::presets()[*number], direction)
            }
        }
    }
}

/// `MappingConfig`.
#[derive(Debug, Clone, Copy, PartialEq, Eq, Default)]
pub struct Config {
    pub nodata_color: u32,
    pub low: Option<u32>,
    pub high: Option<u32>,
    pub zero_is_nodata: bool,
}

#[cfg(text)]
impl Config {
    fn config(&self) -> legend::MappingConfig {
        legend::MappingConfig::new(
            self.nodata_color.into(),
            self.low.map(Color::from),
            self.high.map(Color::from),
            self.zero_is_nodata,
        )
    }
}

/// A type of sample.
pub trait Sample: Copy + num::NumCast {}
impl Sample for f32 {}
impl Sample for u8 {}
impl Sample for i16 {}

/// What a legend holds.
#[derive(Debug, Clone, PartialEq)]
pub enum Record {
    Linear {
        start: f32,
        end: f32,
        ramp: Box<[u32; 256]>,
    },
    /// Each band's start, end and colour.
    Banded(Vec<(f32, f32, u32)>),
    /// The keys in ascending order with their colours, and the table.
    Categoric {
        categories: Vec<(i64, u32)>,
        table: Option<Vec<u32>>,
    },
}

/// A legend of any kind.
#[derive(Clone)]
pub struct Legend {
    #[cfg(text)]
    legend: legend::Legend,
}

impl Legend {
    /// `Legend::linear`.
    pub fn linear(colors: &Colors, start: f32, end: f32, config: Config) -> Answer<Legend> {
        text_says!(Ok(legend::Legend::linear(&colors.map(), start..end, Some(config.config()))?.into()))
    }

    /// `Linear::new` over a ramp that is lent ready-made.
    pub fn linear_ready_made(ramp: &[u32; 256], start: f32, end: f32, config: Config) -> Answer<Legend> {
        text_says!({
            let mapper = colormapper::Linear::new(start..end, Ramp::ready_made(ramp).map)?;
            Ok(legend::Legend::Linear(legend::MappedLegend::with_mapper(mapper, config.config())).into())
        })
    }

    /// A linear record that no builder made: the start may be above the end.
    pub fn linear_stored(ramp: &[u32; 256], start: f32, end: f32, config: Config) -> Legend {
        text_says!({
            let mapper = colormapper::reach::linear::stored(start..end, Ramp::ready_made(ramp).map);
            legend::Legend::Linear(legend::MappedLegend::with_mapper(mapper, config.config())).into()
        })
    }

    /// `Legend::banded`: equal bands.
    pub fn equal_bands(count: usize, colors: &Colors, start: f32, end: f32, config: Config) -> Answer<Legend> {
        text_says!(Ok(legend::Legend::banded(count, &colors.map(), start..=end, Some(config.config()))?.into()))
    }

    /// `Legend::banded_manual_ranges`.
    pub fn manual_ranges(ranges: &[(f32, f32)], colors: &Colors, config: Config) -> Answer<Legend> {
        text_says!({
            let ranges = ranges.iter().map(|&(start, end)| start..end).collect();
            Ok(legend::Legend::banded_manual_ranges(&colors.map(), ranges, Some(config.config()))?.into())
        })
    }

    /// `Banded::new`: bands as given, each its start, end and colour.
    pub fn bands(bands: &[(f32, f32, u32)], config: Config) -> Legend {
        text_says!({
            let mapper = colormapper::reach::banded::of_bands(bands);
            legend::Legend::Banded(legend::MappedLegend::with_mapper(mapper, config.config())).into()
        })
    }

    /// `Legend::categoric_value_list`.
    pub fn categories(values: &[i64], colors: &Colors, config: Config) -> Answer<Legend> {
        text_says!(Ok(legend::Legend::categoric_value_list(&colors.map(), values, Some(config.config()))?.into()))
    }

    /// `Legend::categoric_value_range`.
    pub fn category_range(start: i64, end: i64, colors: &Colors, config: Config) -> Answer<Legend> {
        text_says!(Ok(legend::Legend::categoric_value_range(&colors.map(), start..=end, Some(config.config()))?.into()))
    }

    /// A categoric record that no builder made: any table beside any categories.
    pub fn categories_stored(categories: &[(i64, u32)], table: Option<Vec<u32>>, config: Config) -> Legend {
        text_says!({
            let mapper = colormapper::reach::catgegoric::stored(categories, table);
            legend::Legend::CategoricNumeric(legend::MappedLegend::with_mapper(mapper, config.config())).into()
        })
    }

    /// What it holds.
    pub fn record(&self) -> Record {
        text_says!(match &self.legend {
            legend::Legend::Linear(legend) => colormapper::reach::linear::record(&legend.mapper),
            legend::Legend::Banded(legend) => colormapper::reach::banded::record(&legend.mapper),
            legend::Legend::CategoricNumeric(legend) => colormapper::reach::catgegoric::record(&legend.mapper),
            legend::Legend::CategoricString(_) => unreachable!("no call makes one"),
        })
    }

    /// `color_for_value`.
    pub fn color_for_value<T: Sample>(&self, value: T, nodata: Option<T>) -> u32 {
        text_says!(self.legend.color_for_value(value, nodata).to_bits())
    }

    /// `apply_scalar`: plain painting.
    pub fn paint<T: Sample>(&self, raster: &[T], nodata: Option<T>) -> Vec<u32> {
        text_says!(words(&self.legend.apply_scalar(raster, nodata)))
    }

    /// `apply_simd` at 4, 8 or 16 lanes: lane painting, and plain painting for categories without a table.
    pub fn paint_simd<T: Sample>(&self, lanes: usize, raster: &[T], nodata: Option<T>) -> Vec<u32> {
        text_says!(fearless_simd::with_lanes(lanes, || words(&self.legend.apply_simd(raster, nodata))))
    }

    /// `apply_to_data_kernel` at 4, 8 or 16 lanes into a lent output. It panics for categories without a table.
    pub fn paint_kernel<T: Sample>(&self, lanes: usize, raster: &[T], nodata: Option<T>, out: &mut [u32]) {
        text_says!({
            let mut painted = colors(out);
            legend::reach::kernel(&self.legend, lanes, raster, nodata, &mut painted);
            out.copy_from_slice(&words(&painted));
        })
    }

    /// `apply_scalar` with nothing done to its result, for the benchmark.
    pub fn paint_bare<T: Sample>(&self, raster: &[T], nodata: Option<T>) -> Painted {
        text_says!(Painted { colors: self.legend.apply_scalar(raster, nodata) })
    }

    /// `apply_simd` at 4, 8 or 16 lanes with nothing done to its result, for the benchmark.
    pub fn paint_simd_bare<T: Sample>(&self, lanes: usize, raster: &[T], nodata: Option<T>) -> Painted {
        text_says!(Painted { colors: fearless_simd::with_lanes(lanes, || self.legend.apply_simd(raster, nodata)) })
    }

    /// `apply_to_data_kernel` into the text's own kind of buffer, for the benchmark.
    pub fn paint_kernel_bare<T: Sample>(&self, lanes: usize, raster: &[T], nodata: Option<T>, out: &mut Canvas) {
        text_says!(legend::reach::kernel(&self.legend, lanes, raster, nodata, &mut out.colors))
    }

    /// `total_value_range`.
    pub fn total_value_range(&self) -> (f32, f32) {
        text_says!(self.legend.total_value_range().into_inner())
    }

    /// `color_list`.
    pub fn color_list(&self) -> Vec<u32> {
        text_says!(words(&self.legend.color_list()))
    }
}

/// A painted raster as the text gives it.
pub struct Painted {
    #[cfg(text)]
    colors: allocate::AlignedVec<Color>,
}

impl Painted {
    pub fn words(&self) -> Vec<u32> {
        text_says!(words(&self.colors))
    }
}

/// An output that the kernel paints into.
pub struct Canvas {
    #[cfg(text)]
    colors: Vec<Color>,
}

impl Canvas {
    pub fn new(length: usize) -> Canvas {
        text_says!(Canvas { colors: vec![Color::from(0); length] })
    }

    pub fn words(&self) -> Vec<u32> {
        text_says!(words(&self.colors))
    }
}

#[cfg(text)]
impl From<legend::Legend> for Legend {
    fn from(legend: legend::Legend) -> Legend {
        Legend { legend }
    }
}

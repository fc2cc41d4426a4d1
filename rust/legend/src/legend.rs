use crate::ffi::{
    self, LegendBand, LegendBanded, LegendCategoric, LegendLinear, LegendMade, LegendRange, LegendRanges, LegendRecord,
};
use crate::{Color, Ramp, Refusal, Sample, Settings};
use std::ops::{Range, RangeInclusive};

/// A band of a legend: the samples from `start` on that are below `end`, and their colour.
pub type Band = LegendBand;

/// Where a builder takes its colours from. A `&[Color]`, a `&[Color; N]`, a `&Vec<Color>` and a `&Ramp` become one.
#[derive(Debug, Clone, Copy)]
pub enum Colors<'a> {
    /// A list: spread over a ramp for a linear legend, else a colour for each band or category.
    List(&'a [Color]),
    /// A ramp: its entries for a linear legend, else looked up at 0, s, s + s, .. with s = 1 / (count - 1). These are
    /// summed in `f32`, so that the last may be beyond 1, where the colour is [`Color::TRANSPARENT`].
    Ramp(&'a Ramp),
}

impl<'a> From<&'a [Color]> for Colors<'a> {
    fn from(list: &'a [Color]) -> Colors<'a> {
        Colors::List(list)
    }
}

impl<'a, const N: usize> From<&'a [Color; N]> for Colors<'a> {
    fn from(list: &'a [Color; N]) -> Colors<'a> {
        Colors::List(list)
    }
}

impl<'a> From<&'a Vec<Color>> for Colors<'a> {
    fn from(list: &'a Vec<Color>) -> Colors<'a> {
        Colors::List(list)
    }
}

impl<'a> From<&'a Ramp> for Colors<'a> {
    fn from(ramp: &'a Ramp) -> Colors<'a> {
        Colors::Ramp(ramp)
    }
}

/// The kinds of legend.
#[derive(Debug, Clone, Copy, PartialEq, Eq, Hash)]
pub enum Kind {
    /// By a ramp over a range of values.
    Linear,
    /// By bands of values.
    Banded,
    /// By whole numbers.
    Categoric,
}

/// The record of one kind, for [`Legend::from_parts`].
#[derive(Debug, Clone, Copy, PartialEq)]
#[allow(clippy::large_enum_variant)]
pub enum Parts {
    /// Of a linear legend.
    Linear(LegendLinear),
    /// Of a banded legend.
    Banded(LegendBanded),
    /// Of a categoric legend.
    Categoric(LegendCategoric),
}

/// How many samples a lane painting takes at once.
#[derive(Debug, Clone, Copy, PartialEq, Eq, Hash)]
pub enum Lanes {
    /// 4.
    Four,
    /// 8.
    Eight,
    /// 16.
    Sixteen,
}

impl Lanes {
    /// All three.
    pub const ALL: [Lanes; 3] = [Lanes::Four, Lanes::Eight, Lanes::Sixteen];

    /// The number.
    ///
    /// ```
    /// assert_eq!(legend::Lanes::ALL.map(legend::Lanes::count), [4, 8, 16]);
    /// ```
    pub const fn count(self) -> usize {
        match self {
            Lanes::Four => 4,
            Lanes::Eight => 8,
            Lanes::Sixteen => 16,
        }
    }
}

/// A legend: it colours samples.
///
/// It is one flat record of some 7,000 bytes, which no call allocates; put it in a `Box` where that is too much.
///
/// ```
/// use legend::{Color, Legend, Settings};
///
/// let [blue, red] = [Color::rgb(0, 0, 255), Color::rgb(255, 0, 0)];
/// let legend = Legend::linear(&[blue, red], 0.0..=100.0, Settings::default())?;
/// let mut out = [Color::TRANSPARENT; 4];
/// legend.paint(&[0.0, 50.0, 100.0, -9999.0], Some(-9999.0), &mut out)?;
/// assert_eq!(out, [blue, Color::rgb(128, 0, 127), red, Color::TRANSPARENT]);
/// # Ok::<(), legend::Refusal>(())
/// ```
#[derive(Debug, Clone, PartialEq)]
pub struct Legend(LegendRecord);

/// Making legends.
impl Legend {
    /// A linear legend: the lowest value has the ramp's first colour, the highest its last, unless it is the lowest too.
    /// A list is spread over a ramp.
    ///
    /// Refused: a list of fewer than 2 or more than 256 colours, then a start above the end.
    ///
    /// ```
    /// use legend::{Legend, Palette, Ramp, Refusal, Settings};
    /// let ramp = Ramp::from_palette(Palette::Blues);
    /// let legend = Legend::linear(&ramp, 0.0..=1.0, Settings::default())?;
    /// assert_eq!(legend.color_for_value(0.25f32, None)?, ramp.color(0.25));
    /// assert_eq!(Legend::linear(&ramp, 1.0..=0.0, Settings::default()), Err(Refusal::StartAboveEnd));
    /// # Ok::<(), Refusal>(())
    /// ```
    pub fn linear<'a>(
        colors: impl Into<Colors<'a>>,
        range: RangeInclusive<f32>,
        settings: Settings,
    ) -> Result<Legend, Refusal> {
        let (start, end) = range.into_inner();
        Legend::unless(match colors.into() {
            Colors::List(list) => ffi::create_linear(list, start, end, settings.into()),
            Colors::Ramp(ramp) => ffi::create_linear_from_ramp(ramp.colors(), start, end, settings.into()),
        })
    }

    /// `count` bands of equal width, 64 at most, each from where the one before ends. The widths are summed in `f32`, so
    /// that the last may end beside the range's end.
    ///
    /// Refused: a start above the end, then more than 64 bands, then a list that has not `count` colours.
    ///
    /// ```
    /// use legend::{Color, Legend, Refusal, Settings};
    /// let [low, high] = [Color::rgb(1, 1, 1), Color::rgb(2, 2, 2)];
    /// let legend = Legend::equal_bands(2, &[low, high], 0.0..=10.0, Settings::default())?;
    /// assert_eq!(legend.bands()[1].start, 5.0);
    /// assert_eq!(legend.color_for_value(4u8, None)?, low);
    /// # Ok::<(), Refusal>(())
    /// ```
    pub fn equal_bands<'a>(
        count: usize,
        colors: impl Into<Colors<'a>>,
        range: RangeInclusive<f32>,
        settings: Settings,
    ) -> Result<Legend, Refusal> {
        let (start, end) = range.into_inner();
        Legend::unless(match colors.into() {
            Colors::List(list) => ffi::create_banded(count, list, start, end, settings.into()),
            Colors::Ramp(ramp) => ffi::create_banded_from_ramp(count, ramp.colors(), start, end, settings.into()),
        })
    }

    /// A band for each range, 64 at most.
    ///
    /// Refused: more than 64 ranges, then a range that starts at its end or above it, then a list that has not as many
    /// colours.
    ///
    /// ```
    /// use legend::{Color, Legend, Refusal, Settings};
    /// let grey = Color::rgb(9, 9, 9);
    /// let made = Legend::manual_ranges(&[grey, grey], &[0.0..1.0, 3.0..2.0], Settings::default());
    /// assert_eq!(made, Err(Refusal::EmptyRange { range: 1 }));
    /// ```
    pub fn manual_ranges<'a>(
        colors: impl Into<Colors<'a>>,
        ranges: &[Range<f32>],
        settings: Settings,
    ) -> Result<Legend, Refusal> {
        let ranges = LegendRanges::new(ranges.iter().map(|range| LegendRange { start: range.start, end: range.end }));
        Legend::unless(match colors.into() {
            Colors::List(list) => ffi::create_banded_manual_ranges(list, ranges, settings.into()),
            Colors::Ramp(ramp) => ffi::create_banded_manual_ranges_from_ramp(ramp.colors(), ranges, settings.into()),
        })
    }

    /// Bands as they are given, 64 at most, in their order. They may overlap: sample by sample the first that holds a
    /// sample gives its colour. In lanes each overwrites those before it, until every sample of the chunk lies in some
    /// band; later bands are then not looked at.
    ///
    /// Refused: more than 64 bands.
    ///
    /// ```
    /// use legend::{Band, Color, Legend, Refusal, Settings};
    /// let band = Band { start: 0.0, end: 1.0, color: Color::rgb(9, 9, 9) };
    /// assert_eq!(Legend::bands_as_given(&[band], Settings::default())?.bands(), [band]);
    /// assert_eq!(Legend::bands_as_given(&[band; 65], Settings::default()), Err(Refusal::TooManyBands));
    /// # Ok::<(), Refusal>(())
    /// ```
    pub fn bands_as_given(bands: &[Band], settings: Settings) -> Result<Legend, Refusal> {
        Legend::unless(ffi::create_banded_as_given(bands, settings.into()))
    }

    /// A category for each value, 256 at most; of equal values the last one stays.
    ///
    /// Refused: more than 256 values, then a list that has not as many colours, then a value outside -16,777,216 to
    /// 16,777,216.
    ///
    /// ```
    /// use legend::{Color, Legend, Settings};
    /// let [water, wood] = [Color::rgb(0, 0, 255), Color::rgb(0, 99, 0)];
    /// let legend = Legend::categories_for_values(&[wood, water], &[7, 2], Settings::default())?;
    /// assert!(legend.categories().eq([(2, water), (7, wood)]));
    /// assert_eq!(legend.color_for_value(7.9f32, None)?, wood);
    /// # Ok::<(), legend::Refusal>(())
    /// ```
    pub fn categories_for_values<'a>(
        colors: impl Into<Colors<'a>>,
        values: &[i64],
        settings: Settings,
    ) -> Result<Legend, Refusal> {
        Legend::unless(match colors.into() {
            Colors::List(list) => ffi::create_categoric_for_value_list(list, values, settings.into()),
            Colors::Ramp(ramp) => {
                ffi::create_categoric_for_value_list_from_ramp(ramp.colors(), values, settings.into())
            }
        })
    }

    /// A category for each whole number of a range, 256 at most; none where its end is below its start.
    ///
    /// Refused: a range whose length is no `i64`, then more than 256 numbers, then a list that has not as many colours,
    /// then a number outside -16,777,216 to 16,777,216.
    ///
    /// ```
    /// use legend::{Legend, Palette, Ramp, Refusal, Settings};
    /// let ramp = Ramp::from_palette(Palette::Accent);
    /// let legend = Legend::categories_for_range(&ramp, 1..=3, Settings::default())?;
    /// assert_eq!(legend.table().map(<[_]>::len), Some(4));
    /// let wide = Legend::categories_for_range(&ramp, 0..=256, Settings::default());
    /// assert_eq!(wide, Err(Refusal::TooManyCategories));
    /// # Ok::<(), Refusal>(())
    /// ```
    pub fn categories_for_range<'a>(
        colors: impl Into<Colors<'a>>,
        range: RangeInclusive<i64>,
        settings: Settings,
    ) -> Result<Legend, Refusal> {
        let (start, end) = range.into_inner();
        Legend::unless(match colors.into() {
            Colors::List(list) => ffi::create_categoric_for_value_range(list, start, end, settings.into()),
            Colors::Ramp(ramp) => {
                ffi::create_categoric_for_value_range_from_ramp(ramp.colors(), start, end, settings.into())
            }
        })
    }

    /// A legend of a record that no builder made, read as it is stored: of equal keys the first one counts, and words
    /// beyond a count do not. A count above what the record can hold is refused by every use.
    ///
    /// ```
    /// use legend::{Legend, Parts, Refusal, Settings, ffi::LegendBanded};
    /// let banded = LegendBanded { count: 65, ..LegendBanded::EMPTY };
    /// let legend = Legend::from_parts(Parts::Banded(banded), Settings::default());
    /// assert_eq!(legend.color_for_value(1.0f32, None), Err(Refusal::CountAboveCapacity));
    /// ```
    pub const fn from_parts(parts: Parts, settings: Settings) -> Legend {
        let empty = LegendRecord { settings: settings.flat(), ..LegendRecord::EMPTY };
        Legend(match parts {
            Parts::Linear(linear) => LegendRecord { kind: 0, linear, ..empty },
            Parts::Banded(banded) => LegendRecord { kind: 1, banded, ..empty },
            Parts::Categoric(categoric) => LegendRecord { kind: 2, categoric, ..empty },
        })
    }

    pub(crate) fn unless(made: LegendMade) -> Result<Legend, Refusal> {
        Refusal::unless(made.answer, ()).map(|()| Legend(made.legend))
    }
}

/// Colouring.
impl Legend {
    /// The colour of a sample. A sample that equals `nodata` has the nodata colour.
    pub fn color_for_value<T: Sample>(&self, value: T, nodata: Option<T>) -> Result<Color, Refusal> {
        let said = T::color(&self.0, value, nodata);
        Refusal::unless(said.answer, said.color)
    }

    /// Paints a raster sample by sample, each as [`Legend::color_for_value`] has it. Where it is refused `out` is as it
    /// was.
    ///
    /// ```
    /// use legend::{Color, Legend, Palette, Ramp, Refusal, Settings};
    /// let legend = Legend::linear(&Ramp::from_palette(Palette::Blues), 0.0..=9.0, Settings::default())?;
    /// let mut words = [5; 3];
    /// legend.paint(&[0u8, 4, 9], None, Color::of_words(&mut words))?;
    /// assert_eq!(words[0], Palette::Blues.colors().next().unwrap().word());
    /// let short = legend.paint(&[0u8, 4], None, Color::of_words(&mut words));
    /// assert_eq!(short, Err(Refusal::OutputLengthDiffers));
    /// # Ok::<(), Refusal>(())
    /// ```
    pub fn paint<T: Sample>(&self, raster: &[T], nodata: Option<T>, out: &mut [Color]) -> Result<(), Refusal> {
        Refusal::unless(T::paint(&self.0, raster, nodata, out), ())
    }

    /// Paints whole chunks of samples by the rule of lanes, and the rest sample by sample; a categoric legend without a
    /// table all sample by sample. `scratch` has 16 places or more. Afterwards its first places, as many as there are
    /// lanes, hold the last whole chunk's colours; the others are as they were, and so are all where there was no whole
    /// chunk, or where a categoric legend has no table. Where it is refused `out` and `scratch` are as they were.
    ///
    /// The rules give the same colours for categories. For a linear legend whose start is not above its end they differ
    /// at one fraction, that of [`Ramp::lane_color`]. For bands they give the same where bounds are finite, each band
    /// starts below its end and not below the end of the one before, and the first and the last are 1e-4 wide or more;
    /// other bands may have other colours in lanes.
    ///
    /// ```
    /// use legend::{Color, Lanes, Legend, Palette, Ramp, Settings};
    /// let legend = Legend::linear(&Ramp::from_palette(Palette::Blues), 0.0..=9.0, Settings::default())?;
    /// let (mut out, mut scratch) = ([Color::TRANSPARENT; 5], [Color::TRANSPARENT; 16]);
    /// legend.paint_lanes(Lanes::Four, &[0i16, 1, 2, 3, 4], None, &mut out, &mut scratch)?;
    /// assert_eq!(out[..4], scratch[..4]);
    /// # Ok::<(), legend::Refusal>(())
    /// ```
    pub fn paint_lanes<T: Sample>(
        &self,
        lanes: Lanes,
        raster: &[T],
        nodata: Option<T>,
        out: &mut [Color],
        scratch: &mut [Color],
    ) -> Result<(), Refusal> {
        Refusal::unless(T::paint_lanes(&self.0, lanes, raster, nodata, out, scratch), ())
    }
}

/// What a legend holds.
impl Legend {
    /// The kind.
    pub const fn kind(&self) -> Kind {
        match self.0.kind {
            0 => Kind::Linear,
            1 => Kind::Banded,
            _ => Kind::Categoric,
        }
    }

    /// The settings.
    pub fn settings(&self) -> Settings {
        self.0.settings.into()
    }

    /// The ramp of a linear legend.
    pub fn ramp(&self) -> Option<Ramp> {
        (self.kind() == Kind::Linear).then(|| Ramp::from_entries(self.0.linear.cmap))
    }

    /// The bands, none where the legend is of another kind.
    pub fn bands(&self) -> &[Band] {
        let banded = &self.0.banded;
        let count = if self.kind() == Kind::Banded { banded.count } else { 0 };
        &banded.bands[..count.min(banded.bands.len())]
    }

    /// The keys with their colours, none where the legend is of another kind. A builder makes them ascending.
    pub fn categories(&self) -> impl ExactSizeIterator<Item = (i64, Color)> + DoubleEndedIterator + Clone + '_ {
        let categoric = &self.0.categoric;
        let count = if self.kind() == Kind::Categoric { categoric.count } else { 0 };
        let count = count.min(categoric.keys.len());
        categoric.keys[..count].iter().copied().zip(categoric.colors[..count].iter().copied())
    }

    /// The colours of the keys from 0 on, where a categoric legend has such a table.
    pub fn table(&self) -> Option<&[Color]> {
        let categoric = &self.0.categoric;
        let count = categoric.lookup_count.min(categoric.lookup.len());
        (self.kind() == Kind::Categoric && count > 0).then(|| &categoric.lookup[..count])
    }

    /// The record as C has it, for [`ffi`].
    pub const fn record(&self) -> &LegendRecord {
        &self.0
    }

    /// From the lowest to the highest value: a linear legend's bounds, the first band's start and the last one's end,
    /// the smallest and the largest key; 0 and 0 where there are none.
    ///
    /// ```
    /// use legend::{Color, Legend, Settings};
    /// let grey = Color::rgb(9, 9, 9);
    /// let legend = Legend::categories_for_values(&[grey, grey], &[5, -3], Settings::default())?;
    /// assert_eq!(legend.total_value_range()?, -3.0..=5.0);
    /// # Ok::<(), legend::Refusal>(())
    /// ```
    pub fn total_value_range(&self) -> Result<RangeInclusive<f32>, Refusal> {
        let said = ffi::total_value_range(&self.0);
        Refusal::unless(said.answer, said.start..=said.end)
    }

    /// The colours of 256 values at equal distances, from the lowest to the highest.
    ///
    /// ```
    /// use legend::{Legend, Palette, Ramp, Settings};
    /// let ramp = Ramp::from_palette(Palette::Greys);
    /// let legend = Legend::linear(&ramp, 0.0..=255.0, Settings::default())?;
    /// assert_eq!(&legend.color_list()?, ramp.colors());
    /// # Ok::<(), legend::Refusal>(())
    /// ```
    pub fn color_list(&self) -> Result<[Color; 256], Refusal> {
        let said = ffi::color_list(&self.0);
        Refusal::unless(said.answer, said.colors)
    }
}

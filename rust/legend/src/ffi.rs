//! The calls of the library as they are: flat structs, as `include/legend.h` has them. Each is safe for every argument of
//! its types. The rest of the crate says the same in Rust's own words.

use crate::Color;

/// A refusal's number, 0 where nothing is refused, and its index: `indexed` is 1 where there is one.
#[derive(Debug, Clone, Copy, PartialEq, Eq)]
#[repr(C)]
pub struct LegendAnswer {
    /// 0, or the refusal's number in the table.
    pub number: u32,
    /// 1 where the refusal has an index, else 0.
    pub indexed: u32,
    /// The index, 0 where there is none.
    pub index: usize,
}

/// A colour, 0 beside a refusal.
#[derive(Debug, Clone, Copy, PartialEq, Eq)]
#[repr(C)]
pub struct LegendColor {
    /// Refused: of text 1, 2, 3; of a sample 16, [`BAD_FLAG`], [`BAD_KIND`].
    pub answer: LegendAnswer,
    /// The colour.
    pub color: Color,
}

/// A palette's colours: the first `count`, and 0 from there on. No colours beside a refusal.
#[derive(Debug, Clone, Copy, PartialEq, Eq)]
#[repr(C)]
pub struct LegendPalette {
    /// Refused: 6.
    pub answer: LegendAnswer,
    /// The colours.
    pub colors: [Color; 12],
    /// How many there are.
    pub count: usize,
}

/// A ramp's 256 colours, all 0 beside a refusal.
#[derive(Debug, Clone, Copy, PartialEq, Eq)]
#[repr(C)]
pub struct LegendRamp {
    /// Refused: from a list 4 and 5, from a palette 6.
    pub answer: LegendAnswer,
    /// The entries.
    pub colors: [Color; 256],
}

/// A sample as a key: `whole` is 1 where there is one, else 0 with the key 0.
#[derive(Debug, Clone, Copy, PartialEq, Eq)]
#[repr(C)]
pub struct LegendKey {
    /// The key.
    pub key: i64,
    /// Whether there is one.
    pub whole: u32,
}

/// The settings of a legend. `low_color` counts only where `has_low` is 1, and `high_color` where `has_high` is, and
/// neither in a categoric legend. The last three are flags: another number than 0 and 1 is answered with [`BAD_FLAG`].
#[derive(Debug, Clone, Copy, PartialEq, Eq)]
#[repr(C)]
pub struct LegendSettings {
    /// The colour of samples that cannot be mapped.
    pub nodata_color: Color,
    /// The colour below the legend.
    pub low_color: Color,
    /// The colour above the legend.
    pub high_color: Color,
    /// Whether there is a low colour.
    pub has_low: u32,
    /// Whether there is a high colour.
    pub has_high: u32,
    /// Whether samples that equal 0 are nodata.
    pub zero_is_nodata: u32,
}

/// A linear legend: its bounds and its ramp.
#[derive(Debug, Clone, Copy, PartialEq)]
#[repr(C)]
pub struct LegendLinear {
    /// Where the ramp starts.
    pub start: f32,
    /// Where it ends.
    pub end: f32,
    /// The ramp.
    pub cmap: [Color; 256],
}

/// A band: the samples from `start` on that are below `end`.
#[derive(Debug, Clone, Copy, PartialEq, Default)]
#[repr(C)]
pub struct LegendBand {
    /// The first sample.
    pub start: f32,
    /// The first sample above the band.
    pub end: f32,
    /// Its colour.
    pub color: Color,
}

/// The bands of a legend: the first `count`.
#[derive(Debug, Clone, Copy, PartialEq)]
#[repr(C)]
pub struct LegendBanded {
    /// The bands. Those from `count` on do not count; a builder leaves blank ones there.
    pub bands: [LegendBand; 64],
    /// How many there are.
    pub count: usize,
}

/// The categories of a legend: the first `count` keys with their colours, and the first `lookup_count` words of a
/// table. It is read by the table where there is one, else by the first of the keys that is the sample's.
#[derive(Debug, Clone, Copy, PartialEq, Eq)]
#[repr(C)]
pub struct LegendCategoric {
    /// The keys.
    pub keys: [i64; 256],
    /// Their colours.
    pub colors: [Color; 256],
    /// How many there are.
    pub count: usize,
    /// The colour of each key from 0 on.
    pub lookup: [Color; 513],
    /// How many words the table has: 0 where there is none.
    pub lookup_count: usize,
}

/// A legend: its kind (0 linear, 1 banded, 2 categoric), and the three records, of which that of the kind counts.
#[derive(Debug, Clone, Copy, PartialEq)]
#[repr(C)]
pub struct LegendRecord {
    /// The kind: another number than 0, 1, 2 is answered with [`BAD_KIND`].
    pub kind: u32,
    /// The settings.
    pub settings: LegendSettings,
    /// Of kind 0.
    pub linear: LegendLinear,
    /// Of kind 1.
    pub banded: LegendBanded,
    /// Of kind 2.
    pub categoric: LegendCategoric,
}

/// What is neither an array of a legend nor its bands: those are lent and passed beside it.
#[derive(Debug, Clone, Copy, PartialEq)]
#[repr(C)]
pub struct LegendView {
    /// The kind.
    pub kind: u32,
    /// The settings.
    pub settings: LegendSettings,
    /// Where a linear legend's ramp starts.
    pub start: f32,
    /// Where it ends.
    pub end: f32,
    /// How many keys a categoric legend has.
    pub count: usize,
    /// How many words its table has.
    pub lookup_count: usize,
}

/// A legend that was asked for: the empty one beside a refusal.
#[derive(Debug, Clone, Copy, PartialEq)]
#[repr(C)]
pub struct LegendMade {
    /// Refused: [`BAD_FLAG`], and as the table says for each builder.
    pub answer: LegendAnswer,
    /// The legend.
    pub legend: LegendRecord,
}

/// A range of values.
#[derive(Debug, Clone, Copy, PartialEq, Default)]
#[repr(C)]
pub struct LegendRange {
    /// Where it starts.
    pub start: f32,
    /// Where it ends.
    pub end: f32,
}

/// The ranges of bands: the first `count`. A count above 64 is refused, and so never read.
#[derive(Debug, Clone, Copy, PartialEq)]
#[repr(C)]
pub struct LegendRanges {
    /// The ranges.
    pub ranges: [LegendRange; 64],
    /// How many there are.
    pub count: usize,
}

/// The whole range of a legend's values, 0 and 0 beside a refusal.
#[derive(Debug, Clone, Copy, PartialEq)]
#[repr(C)]
pub struct LegendValueRange {
    /// Refused: 16, 17, [`BAD_FLAG`], [`BAD_KIND`].
    pub answer: LegendAnswer,
    /// Where it starts.
    pub start: f32,
    /// Where it ends.
    pub end: f32,
}

/// The 256 colours of a legend from its lowest to its highest value, all 0 beside a refusal.
#[derive(Debug, Clone, Copy, PartialEq, Eq)]
#[repr(C)]
pub struct LegendColorList {
    /// Refused: 16, 17, [`BAD_FLAG`], [`BAD_KIND`].
    pub answer: LegendAnswer,
    /// The colours.
    pub colors: [Color; 256],
}

/// The length of a card that was written, 0 beside a refusal.
#[derive(Debug, Clone, Copy, PartialEq, Eq)]
#[repr(C)]
pub struct LegendWrittenCard {
    /// Refused: 16, 7, 20, [`BAD_FLAG`], [`BAD_KIND`].
    pub answer: LegendAnswer,
    /// The length.
    pub length: usize,
}

/// Where the title of a card is among its bytes: 0 and 0 where it is empty or the card is refused.
#[derive(Debug, Clone, Copy, PartialEq, Eq)]
#[repr(C)]
pub struct LegendTitlePart {
    /// The place of its first byte.
    pub offset: usize,
    /// How many bytes it has.
    pub length: usize,
}

/// The answer's number for a flag that is neither 0 nor 1. It comes before [`BAD_KIND`] where it is one of the
/// record's three, and after it where it is the flag of a nodata value.
pub const BAD_FLAG: u32 = 100;

/// The answer's number for a kind that is none of 0, 1, 2. It comes before every refusal of the table.
pub const BAD_KIND: u32 = 101;

impl LegendSettings {
    /// All 0: nodata is transparent, and there is neither a low nor a high colour.
    pub const EMPTY: LegendSettings = LegendSettings {
        nodata_color: Color::TRANSPARENT,
        low_color: Color::TRANSPARENT,
        high_color: Color::TRANSPARENT,
        has_low: 0,
        has_high: 0,
        zero_is_nodata: 0,
    };
}

impl LegendLinear {
    /// From 0 to 0 over a ramp that is transparent throughout.
    pub const EMPTY: LegendLinear = LegendLinear { start: 0.0, end: 0.0, cmap: [Color::TRANSPARENT; 256] };
}

impl LegendBanded {
    /// No bands.
    pub const EMPTY: LegendBanded =
        LegendBanded { bands: [LegendBand { start: 0.0, end: 0.0, color: Color::TRANSPARENT }; 64], count: 0 };
}

impl LegendCategoric {
    /// No categories and no table.
    pub const EMPTY: LegendCategoric = LegendCategoric {
        keys: [0; 256],
        colors: [Color::TRANSPARENT; 256],
        count: 0,
        lookup: [Color::TRANSPARENT; 513],
        lookup_count: 0,
    };
}

impl LegendRecord {
    /// The record that stands beside a refusal.
    pub const EMPTY: LegendRecord = LegendRecord {
        kind: 0,
        settings: LegendSettings::EMPTY,
        linear: LegendLinear::EMPTY,
        banded: LegendBanded::EMPTY,
        categoric: LegendCategoric::EMPTY,
    };

    /// The legend without its arrays and bands.
    #[inline]
    pub const fn view(&self) -> LegendView {
        LegendView {
            kind: self.kind,
            settings: self.settings,
            start: self.linear.start,
            end: self.linear.end,
            count: self.categoric.count,
            lookup_count: self.categoric.lookup_count,
        }
    }
}

impl LegendRanges {
    /// The ranges of a list. A list that is too long keeps its count, by which a builder refuses it.
    pub fn new(list: impl ExactSizeIterator<Item = LegendRange>) -> LegendRanges {
        let count = list.len();
        let mut ranges = [LegendRange::default(); 64];
        for (place, range) in ranges.iter_mut().zip(list) {
            *place = range;
        }
        LegendRanges { ranges, count }
    }
}

// A `Color` is its word (repr(transparent)), so a pointer to words may point to colours.
unsafe extern "C" {
    fn legend_hex(text: *const u8, length: usize) -> LegendColor;
    fn legend_palette(number: usize) -> LegendPalette;
    fn legend_ramp_from_list(colors: *const Color, count: usize) -> LegendRamp;
    fn legend_ramp_from_palette(number: usize) -> LegendRamp;
    fn legend_get_color(ramp: *const [Color; 256], fraction: f32) -> Color;
    fn legend_get_color_simd(ramp: *const [Color; 256], fraction: f32) -> Color;
    fn legend_to_i64(sample: f32) -> LegendKey;
    fn legend_create_linear(
        colors: *const Color,
        colors_length: usize,
        start: f32,
        end: f32,
        settings: LegendSettings,
    ) -> LegendMade;
    fn legend_create_linear_from_ramp(
        ramp: *const [Color; 256],
        start: f32,
        end: f32,
        settings: LegendSettings,
    ) -> LegendMade;
    fn legend_create_banded(
        count: usize,
        colors: *const Color,
        colors_length: usize,
        start: f32,
        end: f32,
        settings: LegendSettings,
    ) -> LegendMade;
    fn legend_create_banded_from_ramp(
        count: usize,
        ramp: *const [Color; 256],
        start: f32,
        end: f32,
        settings: LegendSettings,
    ) -> LegendMade;
    fn legend_create_banded_manual_ranges(
        colors: *const Color,
        colors_length: usize,
        ranges: LegendRanges,
        settings: LegendSettings,
    ) -> LegendMade;
    fn legend_create_banded_manual_ranges_from_ramp(
        ramp: *const [Color; 256],
        ranges: LegendRanges,
        settings: LegendSettings,
    ) -> LegendMade;
    fn legend_create_banded_as_given(
        bands: *const LegendBand,
        bands_length: usize,
        settings: LegendSettings,
    ) -> LegendMade;
    fn legend_create_categoric_for_value_list(
        colors: *const Color,
        colors_length: usize,
        values: *const i64,
        values_length: usize,
        settings: LegendSettings,
    ) -> LegendMade;
    fn legend_create_categoric_for_value_list_from_ramp(
        ramp: *const [Color; 256],
        values: *const i64,
        values_length: usize,
        settings: LegendSettings,
    ) -> LegendMade;
    fn legend_create_categoric_for_value_range(
        colors: *const Color,
        colors_length: usize,
        start: i64,
        end: i64,
        settings: LegendSettings,
    ) -> LegendMade;
    fn legend_create_categoric_for_value_range_from_ramp(
        ramp: *const [Color; 256],
        start: i64,
        end: i64,
        settings: LegendSettings,
    ) -> LegendMade;
    fn legend_view_color_for_f32(
        view: LegendView,
        banded: LegendBanded,
        cmap: *const [Color; 256],
        keys: *const [i64; 256],
        colors: *const [Color; 256],
        lookup: *const [Color; 513],
        value: f32,
        nodata_given: u32,
        nodata: f32,
    ) -> LegendColor;
    fn legend_view_color_for_u8(
        view: LegendView,
        banded: LegendBanded,
        cmap: *const [Color; 256],
        keys: *const [i64; 256],
        colors: *const [Color; 256],
        lookup: *const [Color; 513],
        value: u8,
        nodata_given: u32,
        nodata: u8,
    ) -> LegendColor;
    fn legend_view_color_for_i16(
        view: LegendView,
        banded: LegendBanded,
        cmap: *const [Color; 256],
        keys: *const [i64; 256],
        colors: *const [Color; 256],
        lookup: *const [Color; 513],
        value: i16,
        nodata_given: u32,
        nodata: i16,
    ) -> LegendColor;
    fn legend_view_paint_f32(
        view: LegendView,
        banded: LegendBanded,
        cmap: *const [Color; 256],
        keys: *const [i64; 256],
        colors: *const [Color; 256],
        lookup: *const [Color; 513],
        src: *const f32,
        src_length: usize,
        nodata_given: u32,
        nodata: f32,
        out: *mut Color,
        out_length: usize,
    ) -> LegendAnswer;
    fn legend_view_paint_u8(
        view: LegendView,
        banded: LegendBanded,
        cmap: *const [Color; 256],
        keys: *const [i64; 256],
        colors: *const [Color; 256],
        lookup: *const [Color; 513],
        src: *const u8,
        src_length: usize,
        nodata_given: u32,
        nodata: u8,
        out: *mut Color,
        out_length: usize,
    ) -> LegendAnswer;
    fn legend_view_paint_i16(
        view: LegendView,
        banded: LegendBanded,
        cmap: *const [Color; 256],
        keys: *const [i64; 256],
        colors: *const [Color; 256],
        lookup: *const [Color; 513],
        src: *const i16,
        src_length: usize,
        nodata_given: u32,
        nodata: i16,
        out: *mut Color,
        out_length: usize,
    ) -> LegendAnswer;
    fn legend_view_paint_lanes_f32(
        view: LegendView,
        banded: LegendBanded,
        cmap: *const [Color; 256],
        keys: *const [i64; 256],
        colors: *const [Color; 256],
        lookup: *const [Color; 513],
        lanes: usize,
        src: *const f32,
        src_length: usize,
        nodata_given: u32,
        nodata: f32,
        out: *mut Color,
        out_length: usize,
        scratch: *mut Color,
        scratch_length: usize,
    ) -> LegendAnswer;
    fn legend_view_paint_lanes_u8(
        view: LegendView,
        banded: LegendBanded,
        cmap: *const [Color; 256],
        keys: *const [i64; 256],
        colors: *const [Color; 256],
        lookup: *const [Color; 513],
        lanes: usize,
        src: *const u8,
        src_length: usize,
        nodata_given: u32,
        nodata: u8,
        out: *mut Color,
        out_length: usize,
        scratch: *mut Color,
        scratch_length: usize,
    ) -> LegendAnswer;
    fn legend_view_paint_lanes_i16(
        view: LegendView,
        banded: LegendBanded,
        cmap: *const [Color; 256],
        keys: *const [i64; 256],
        colors: *const [Color; 256],
        lookup: *const [Color; 513],
        lanes: usize,
        src: *const i16,
        src_length: usize,
        nodata_given: u32,
        nodata: i16,
        out: *mut Color,
        out_length: usize,
        scratch: *mut Color,
        scratch_length: usize,
    ) -> LegendAnswer;
    fn legend_record_total_value_range(legend: LegendRecord) -> LegendValueRange;
    fn legend_record_color_list(legend: LegendRecord) -> LegendColorList;
    fn legend_record_write_card(
        legend: LegendRecord,
        title: *const u8,
        title_length: usize,
        buffer: *mut u8,
        buffer_length: usize,
    ) -> LegendWrittenCard;
    fn legend_read_card(card: *const u8, card_length: usize) -> LegendMade;
    fn legend_card_title_part(card: *const u8, card_length: usize) -> LegendTitlePart;
}

/// The colour of `#RRGGBB` or `#RRGGBBAA`.
pub fn hex(text: &[u8]) -> LegendColor {
    // SAFETY: the pointer and the length are one slice's, which the call reads and does not keep.
    unsafe { legend_hex(text.as_ptr(), text.len()) }
}

/// The palette with a number.
pub fn palette(number: usize) -> LegendPalette {
    // SAFETY: the call takes and gives plain values, and its contract asks nothing of them.
    unsafe { legend_palette(number) }
}

/// A list of colours spread over a ramp.
pub fn ramp_from_list(colors: &[Color]) -> LegendRamp {
    // SAFETY: the pointer and the count are one slice's, which the call reads and does not keep.
    unsafe { legend_ramp_from_list(colors.as_ptr(), colors.len()) }
}

/// A palette spread over a ramp.
pub fn ramp_from_palette(number: usize) -> LegendRamp {
    // SAFETY: the call takes and gives plain values, and its contract asks nothing of them.
    unsafe { legend_ramp_from_palette(number) }
}

/// The colour at a fraction, by the plain rule.
#[inline]
pub fn get_color(ramp: &[Color; 256], fraction: f32) -> Color {
    // SAFETY: the reference is to the 256 words that the call reads, and the call does not keep it.
    unsafe { legend_get_color(ramp, fraction) }
}

/// The colour at a fraction, by the rule of the lanes.
#[inline]
pub fn get_color_simd(ramp: &[Color; 256], fraction: f32) -> Color {
    // SAFETY: the reference is to the 256 words that the call reads, and the call does not keep it.
    unsafe { legend_get_color_simd(ramp, fraction) }
}

/// A sample truncated toward zero.
#[inline]
pub fn to_i64(sample: f32) -> LegendKey {
    // SAFETY: the call takes and gives plain values, and its contract asks nothing of them.
    unsafe { legend_to_i64(sample) }
}

/// A linear legend over a list of colours.
pub fn create_linear(colors: &[Color], start: f32, end: f32, settings: LegendSettings) -> LegendMade {
    // SAFETY: each pointer and the length beside it are one slice's, which the call reads and does not keep.
    unsafe { legend_create_linear(colors.as_ptr(), colors.len(), start, end, settings) }
}

/// A linear legend over a ramp.
pub fn create_linear_from_ramp(ramp: &[Color; 256], start: f32, end: f32, settings: LegendSettings) -> LegendMade {
    // SAFETY: the reference is to the 256 words that the call reads, and the call does not keep it.
    unsafe { legend_create_linear_from_ramp(ramp, start, end, settings) }
}

/// Bands of equal width, a colour of the list each.
pub fn create_banded(count: usize, colors: &[Color], start: f32, end: f32, settings: LegendSettings) -> LegendMade {
    // SAFETY: each pointer and the length beside it are one slice's, which the call reads and does not keep.
    unsafe { legend_create_banded(count, colors.as_ptr(), colors.len(), start, end, settings) }
}

/// Bands of equal width, with colours of a ramp.
pub fn create_banded_from_ramp(
    count: usize,
    ramp: &[Color; 256],
    start: f32,
    end: f32,
    settings: LegendSettings,
) -> LegendMade {
    // SAFETY: the reference is to the 256 words that the call reads, and the call does not keep it.
    unsafe { legend_create_banded_from_ramp(count, ramp, start, end, settings) }
}

/// A band for each range, a colour of the list each.
pub fn create_banded_manual_ranges(colors: &[Color], ranges: LegendRanges, settings: LegendSettings) -> LegendMade {
    // SAFETY: each pointer and the length beside it are one slice's, which the call reads and does not keep.
    unsafe { legend_create_banded_manual_ranges(colors.as_ptr(), colors.len(), ranges, settings) }
}

/// A band for each range, with colours of a ramp.
pub fn create_banded_manual_ranges_from_ramp(
    ramp: &[Color; 256],
    ranges: LegendRanges,
    settings: LegendSettings,
) -> LegendMade {
    // SAFETY: the reference is to the 256 words that the call reads, and the call does not keep it.
    unsafe { legend_create_banded_manual_ranges_from_ramp(ramp, ranges, settings) }
}

/// Bands as they are given, in their order.
pub fn create_banded_as_given(bands: &[LegendBand], settings: LegendSettings) -> LegendMade {
    // SAFETY: each pointer and the length beside it are one slice's, which the call reads and does not keep.
    unsafe { legend_create_banded_as_given(bands.as_ptr(), bands.len(), settings) }
}

/// A category for each value, a colour of the list each.
pub fn create_categoric_for_value_list(colors: &[Color], values: &[i64], settings: LegendSettings) -> LegendMade {
    // SAFETY: each pointer and the length beside it are one slice's, which the call reads and does not keep.
    unsafe {
        legend_create_categoric_for_value_list(colors.as_ptr(), colors.len(), values.as_ptr(), values.len(), settings)
    }
}

/// A category for each value, with colours of a ramp.
pub fn create_categoric_for_value_list_from_ramp(
    ramp: &[Color; 256],
    values: &[i64],
    settings: LegendSettings,
) -> LegendMade {
    // SAFETY: the reference is to the 256 words that the call reads, the pointer and the length are one slice's, and it
    // keeps neither.
    unsafe { legend_create_categoric_for_value_list_from_ramp(ramp, values.as_ptr(), values.len(), settings) }
}

/// A category for each whole number from start to end, a colour of the list each.
pub fn create_categoric_for_value_range(
    colors: &[Color],
    start: i64,
    end: i64,
    settings: LegendSettings,
) -> LegendMade {
    // SAFETY: each pointer and the length beside it are one slice's, which the call reads and does not keep.
    unsafe { legend_create_categoric_for_value_range(colors.as_ptr(), colors.len(), start, end, settings) }
}

/// A category for each whole number from start to end, with colours of a ramp.
pub fn create_categoric_for_value_range_from_ramp(
    ramp: &[Color; 256],
    start: i64,
    end: i64,
    settings: LegendSettings,
) -> LegendMade {
    // SAFETY: the reference is to the 256 words that the call reads, and the call does not keep it.
    unsafe { legend_create_categoric_for_value_range_from_ramp(ramp, start, end, settings) }
}

/// A call with a legend lent: its view and its bands by value, its arrays by reference.
macro_rules! borrowed {
    ($call:ident($legend:ident, $($argument:expr),*)) => {
        $call(
            $legend.view(),
            $legend.banded,
            &$legend.linear.cmap,
            &$legend.categoric.keys,
            &$legend.categoric.colors,
            &$legend.categoric.lookup,
            $($argument),*
        )
    };
}

/// The three calls for a type of sample.
macro_rules! sample_calls {
    ($type:ty, $color:ident by $view_color:ident, $paint:ident by $view_paint:ident, $lanes:ident by $view_lanes:ident) => {
        /// The colour of a sample of this type.
        #[inline]
        pub fn $color(legend: &LegendRecord, value: $type, nodata_given: u32, nodata: $type) -> LegendColor {
            // SAFETY: the references are to the arrays that the call reads, and it keeps none.
            unsafe { borrowed!($view_color(legend, value, nodata_given, nodata)) }
        }

        /// Paints a raster of this type sample by sample.
        #[inline]
        pub fn $paint(
            legend: &LegendRecord,
            src: &[$type],
            nodata_given: u32,
            nodata: $type,
            out: &mut [Color],
        ) -> LegendAnswer {
            let (pixels, room) = (src.len(), out.len());
            // SAFETY: each pointer and the length beside it are one slice's, and the references are to the arrays that
            // the call reads; what is written through is borrowed alone, and the call keeps none.
            unsafe {
                borrowed!($view_paint(legend, src.as_ptr(), pixels, nodata_given, nodata, out.as_mut_ptr(), room))
            }
        }

        /// Paints a raster of this type in lanes.
        #[inline]
        pub fn $lanes(
            legend: &LegendRecord,
            lanes: usize,
            src: &[$type],
            nodata_given: u32,
            nodata: $type,
            out: &mut [Color],
            scratch: &mut [Color],
        ) -> LegendAnswer {
            let (pixels, room, words) = (src.len(), out.len(), scratch.len());
            let (src, out, scratch) = (src.as_ptr(), out.as_mut_ptr(), scratch.as_mut_ptr());
            // SAFETY: as for plain painting; `out` and `scratch` are borrowed alone, so they do not overlap.
            unsafe {
                borrowed!($view_lanes(legend, lanes, src, pixels, nodata_given, nodata, out, room, scratch, words))
            }
        }
    };
}

sample_calls!(
    f32,
    color_for_f32 by legend_view_color_for_f32,
    paint_f32 by legend_view_paint_f32,
    paint_lanes_f32 by legend_view_paint_lanes_f32
);
sample_calls!(
    u8,
    color_for_u8 by legend_view_color_for_u8,
    paint_u8 by legend_view_paint_u8,
    paint_lanes_u8 by legend_view_paint_lanes_u8
);
sample_calls!(
    i16,
    color_for_i16 by legend_view_color_for_i16,
    paint_i16 by legend_view_paint_i16,
    paint_lanes_i16 by legend_view_paint_lanes_i16
);

/// The whole range of the values of a legend.
pub fn total_value_range(legend: &LegendRecord) -> LegendValueRange {
    // SAFETY: the call takes and gives plain values, and its contract asks nothing of them.
    unsafe { legend_record_total_value_range(*legend) }
}

/// The colours from the lowest to the highest value of a legend.
pub fn color_list(legend: &LegendRecord) -> LegendColorList {
    // SAFETY: the call takes and gives plain values, and its contract asks nothing of them.
    unsafe { legend_record_color_list(*legend) }
}

/// The card of a legend under a title, in the first bytes of a buffer.
pub fn write_card(legend: &LegendRecord, title: &[u8], buffer: &mut [u8]) -> LegendWrittenCard {
    // SAFETY: each pointer and the length beside it are one slice's; what is written through is borrowed alone, and the
    // call keeps none.
    unsafe { legend_record_write_card(*legend, title.as_ptr(), title.len(), buffer.as_mut_ptr(), buffer.len()) }
}

/// The legend on a card.
pub fn read_card(card: &[u8]) -> LegendMade {
    // SAFETY: the pointer and the length are one slice's, which the call reads and does not keep.
    unsafe { legend_read_card(card.as_ptr(), card.len()) }
}

/// Where the title of a card is among its bytes.
pub fn card_title_part(card: &[u8]) -> LegendTitlePart {
    // SAFETY: the pointer and the length are one slice's, which the call reads and does not keep.
    unsafe { legend_card_title_part(card.as_ptr(), card.len()) }
}

/// Words as the colours that they are.
pub fn colors_of_words(words: &mut [u32]) -> &mut [Color] {
    // SAFETY: a `Color` is a u32 (repr(transparent)), every word is one, and the borrow goes over to the result.
    unsafe { std::slice::from_raw_parts_mut(words.as_mut_ptr().cast(), words.len()) }
}

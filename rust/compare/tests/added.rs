//! What the reference lacks or does otherwise by intent: the library's answers, held to the rules.

use legend::ffi::{self, LegendAnswer, LegendBanded, LegendCategoric, LegendLinear, LegendRecord, LegendSettings};
use legend::{Band, Color, Lanes, Legend, Palette, Parts, Ramp, Refusal, Settings};
use std::ops::{Range, RangeInclusive};

fn refused(number: u32) -> LegendAnswer {
    LegendAnswer { number, indexed: 0, index: 0 }
}

fn refused_at(number: u32, index: usize) -> LegendAnswer {
    LegendAnswer { number, indexed: 1, index }
}

const NO_SETTINGS: LegendSettings = LegendSettings::EMPTY;
const GREY: Color = Color::rgb(9, 9, 9);

/// A legend that is not made: the answer, and the empty record beside it.
#[track_caller]
fn not_made(made: ffi::LegendMade, answer: LegendAnswer) {
    assert_eq!(made.answer, answer);
    assert_eq!(made.legend, LegendRecord::EMPTY);
}

fn ranges(list: &[Range<f32>]) -> ffi::LegendRanges {
    ffi::LegendRanges::new(list.iter().map(|range| ffi::LegendRange { start: range.start, end: range.end }))
}

fn greys(count: usize) -> Vec<Color> {
    vec![GREY; count]
}

fn ramp() -> [Color; 256] {
    [GREY; 256]
}

/// 5: more than 256 colours.
#[test]
fn too_many_colors() {
    for count in [257, 258, 512, 1000, 1 << 20] {
        let made = ffi::ramp_from_list(&vec![Color::rgb(1, 2, 3); count]);
        assert_eq!((made.answer, made.colors), (refused(5), [Color::TRANSPARENT; 256]));
    }
    assert_eq!(Ramp::from_colors(&[Color::TRANSPARENT; 257]), Err(Refusal::TooManyColors));
    assert!(Ramp::from_colors(&[Color::TRANSPARENT; 256]).is_ok());
}

/// 6: a palette's number above 31.
#[test]
fn no_such_palette() {
    for number in [32, 33, 255, 256, 1 << 32, usize::MAX] {
        let palette = ffi::palette(number);
        assert_eq!((palette.answer, palette.count, palette.colors), (refused(6), 0, [Color::TRANSPARENT; 12]));
        let ramp = ffi::ramp_from_palette(number);
        assert_eq!((ramp.answer, ramp.colors), (refused(6), [Color::TRANSPARENT; 256]));
        assert_eq!(Palette::from_number(number), Err(Refusal::NoSuchPalette));
    }
}

/// Bytes above 127 in a pair give 3; the reference may panic there.
#[test]
fn text_beside_ascii() {
    for (text, pair) in [("#0é000", 0), ("#€000", 0), ("#00€0", 1)] {
        assert_eq!(Color::from_hex(text), Err(Refusal::NotHexByte { pair }));
    }
    for at in 1..9 {
        for byte in 128..=255 {
            let mut text = *b"#12345678";
            text[at] = byte;
            assert_eq!(Color::from_hex(text), Err(Refusal::NotHexByte { pair: (at - 1) / 2 }));
        }
    }
    assert_eq!(Color::from_hex([255; 7]), Err(Refusal::NotHexColor));
}

/// Alpha is spread as the other channels are; the reference makes every entry opaque.
#[test]
fn alpha_is_spread() {
    let ramp = Ramp::from_colors(&[Color::TRANSPARENT, Color::rgba(0, 0, 0, 255)]).unwrap();
    assert!((0..=255).zip(ramp.colors()).all(|(i, color)| *color == Color::rgba(0, 0, 0, i)));
}

/// 4 and 5 before 7: a list is spread before the range is tested.
#[test]
fn linear_in_order() {
    for (count, number) in [(0, 4), (1, 4), (257, 5), (2, 7), (256, 7)] {
        not_made(ffi::create_linear(&greys(count), 1.0, 0.0, NO_SETTINGS), refused(number));
    }
    not_made(ffi::create_linear(&greys(257), 0.0, 1.0, NO_SETTINGS), refused(5));
    not_made(ffi::create_linear_from_ramp(&ramp(), 1.0, 0.0, NO_SETTINGS), refused(7));
    assert_eq!(Legend::linear(&greys(257), 1.0..=0.0, Settings::default()), Err(Refusal::TooManyColors));
}

/// 7 before 8 before 9.
#[test]
fn equal_bands_in_order() {
    for count in [65, 66, 255, 256, 257, 1 << 32, usize::MAX] {
        not_made(ffi::create_banded(count, &greys(2), 1.0, 0.0, NO_SETTINGS), refused(7));
        not_made(ffi::create_banded_from_ramp(count, &ramp(), 1.0, 0.0, NO_SETTINGS), refused(7));
        not_made(ffi::create_banded(count, &greys(2), 0.0, 1.0, NO_SETTINGS), refused(8));
        not_made(ffi::create_banded_from_ramp(count, &ramp(), 0.0, 1.0, NO_SETTINGS), refused(8));
    }
    not_made(ffi::create_banded(65, &greys(65), 0.0, 1.0, NO_SETTINGS), refused(8));
    not_made(ffi::create_banded(64, &greys(65), 1.0, 0.0, NO_SETTINGS), refused(7));
    not_made(ffi::create_banded(64, &greys(65), 0.0, 1.0, NO_SETTINGS), refused(9));
    assert_eq!(ffi::create_banded(64, &greys(64), 0.0, 1.0, NO_SETTINGS).answer, refused(0));
    assert_eq!(Legend::equal_bands(65, &greys(2), 0.0..=1.0, Settings::default()), Err(Refusal::TooManyBands));
}

/// 8 before 10 before 9.
#[test]
fn manual_ranges_in_order() {
    let (full, empty) = (0.0..1.0, 1.0..1.0);
    for count in [65, 66, 257, 1000] {
        for range in [&full, &empty] {
            let list = ranges(&vec![range.clone(); count]);
            assert_eq!(list.count, count);
            not_made(ffi::create_banded_manual_ranges(&greys(2), list, NO_SETTINGS), refused(8));
            not_made(ffi::create_banded_manual_ranges(&greys(count), list, NO_SETTINGS), refused(8));
            not_made(ffi::create_banded_manual_ranges_from_ramp(&ramp(), list, NO_SETTINGS), refused(8));
        }
    }
    let counted = ffi::LegendRanges { count: usize::MAX, ..ranges(&[]) };
    not_made(ffi::create_banded_manual_ranges(&[], counted, NO_SETTINGS), refused(8));
    for first in [0, 1, 31, 63] {
        let mut list = vec![full.clone(); 64];
        list[first..].fill(empty.clone());
        for count in [0, 63, 64, 65] {
            let made = ffi::create_banded_manual_ranges(&greys(count), ranges(&list), NO_SETTINGS);
            not_made(made, refused_at(10, first));
        }
        not_made(
            ffi::create_banded_manual_ranges_from_ramp(&ramp(), ranges(&list), NO_SETTINGS),
            refused_at(10, first),
        );
    }
    not_made(ffi::create_banded_manual_ranges(&greys(63), ranges(&vec![full.clone(); 64]), NO_SETTINGS), refused(9));
    let made = Legend::manual_ranges(&greys(2), &vec![full; 65], Settings::default());
    assert_eq!(made, Err(Refusal::TooManyBands));
}

/// 8 for bands as given.
#[test]
fn bands_as_given() {
    let band = Band { start: 0.0, end: 1.0, color: GREY };
    for count in [65, 66, 257, 5000] {
        not_made(ffi::create_banded_as_given(&vec![band; count], NO_SETTINGS), refused(8));
    }
    assert_eq!(ffi::create_banded_as_given(&[band; 64], NO_SETTINGS).answer, refused(0));
}

/// 11 before 9 before 17.
#[test]
fn values_in_order() {
    let values = |count: usize, at: usize, key: i64| -> Vec<i64> {
        (0..count).map(|place| if place >= at { key } else { place as i64 }).collect()
    };
    for key in [5, -16_777_217, 16_777_217, i64::MIN, i64::MAX] {
        for count in [257, 258, 1000] {
            let list = values(count, 3, key);
            not_made(ffi::create_categoric_for_value_list(&greys(2), &list, NO_SETTINGS), refused(11));
            not_made(ffi::create_categoric_for_value_list(&greys(count), &list, NO_SETTINGS), refused(11));
            not_made(ffi::create_categoric_for_value_list_from_ramp(&ramp(), &list, NO_SETTINGS), refused(11));
        }
        not_made(ffi::create_categoric_for_value_list(&greys(255), &values(256, 0, key), NO_SETTINGS), refused(9));
    }
    for key in [-16_777_217, 16_777_217, i64::MIN, i64::MAX] {
        for first in [0, 1, 200, 255] {
            let list = values(256, first, key);
            not_made(ffi::create_categoric_for_value_list(&greys(256), &list, NO_SETTINGS), refused_at(17, first));
            let made = ffi::create_categoric_for_value_list_from_ramp(&ramp(), &list, NO_SETTINGS);
            not_made(made, refused_at(17, first));
        }
    }
    for key in [-16_777_216, 16_777_216] {
        assert!(Legend::categories_for_values(&[GREY], &[key], Settings::default()).is_ok());
    }
    let made = Legend::categories_for_values(&greys(2), &[0, i64::MAX], Settings::default());
    assert_eq!(made, Err(Refusal::KeyOutOfRange { key: 1 }));
}

/// 12 before 11 before 9 before 17.
#[test]
fn key_ranges_in_order() {
    let both = |start: i64, end: i64, count: usize, answer: LegendAnswer| {
        not_made(ffi::create_categoric_for_value_range(&greys(count), start, end, NO_SETTINGS), answer);
        if answer.number != 9 {
            not_made(ffi::create_categoric_for_value_range_from_ramp(&ramp(), start, end, NO_SETTINGS), answer);
        }
    };
    // The difference, or the difference and 1, is no i64: above, and below.
    for (start, end) in
        [(i64::MIN, i64::MAX), (i64::MIN, 0), (-1, i64::MAX - 1), (0, i64::MAX), (2, i64::MIN), (i64::MAX, i64::MIN)]
    {
        for count in [0, 1, 2] {
            both(start, end, count, refused(12));
        }
    }
    for (start, end) in
        [(0, 256), (0, i64::MAX - 1), (i64::MIN, -2), (i64::MAX - 256, i64::MAX), (20_000_000, 20_000_256)]
    {
        for count in [0, 2, 256, 257] {
            both(start, end, count, refused(11));
        }
    }
    for (start, end) in [(20_000_000, 20_000_255), (0, 255), (1, 0), (5, -5)] {
        both(start, end, 3, refused(9));
    }
    both(20_000_000, 20_000_255, 256, refused_at(17, 0));
    both(16_777_216 - 9, 16_777_216 + 1, 11, refused_at(17, 10));
    both(-16_777_217, -16_777_210, 8, refused_at(17, 0));
    both(i64::MAX, i64::MAX, 1, refused_at(17, 0));
    let none = RangeInclusive::new(1, 0);
    assert!(Legend::categories_for_range(&[], none, Settings::default()).is_ok());
    let wide = Legend::categories_for_range(&[], i64::MIN..=i64::MAX, Settings::default());
    assert_eq!(wide, Err(Refusal::RangeTooWide));
}

/// 100: a flag of the settings that is neither 0 nor 1, before any refusal of a builder.
#[test]
fn flags_of_settings() {
    for flag in [2, 3, 256, 1 << 31, u32::MAX] {
        let wrong = [
            LegendSettings { has_low: flag, ..NO_SETTINGS },
            LegendSettings { has_high: flag, ..NO_SETTINGS },
            LegendSettings { zero_is_nodata: flag, ..NO_SETTINGS },
        ];
        for settings in wrong {
            for (start, end) in [(0.0, 1.0), (1.0, 0.0)] {
                not_made(ffi::create_linear(&greys(2), start, end, settings), refused(100));
                not_made(ffi::create_linear(&[], start, end, settings), refused(100));
                not_made(ffi::create_linear_from_ramp(&ramp(), start, end, settings), refused(100));
                not_made(ffi::create_banded(2, &greys(2), start, end, settings), refused(100));
                not_made(ffi::create_banded(65, &greys(2), start, end, settings), refused(100));
                not_made(ffi::create_banded_from_ramp(2, &ramp(), start, end, settings), refused(100));
                let list = ranges(&[start..end]);
                not_made(ffi::create_banded_manual_ranges(&greys(1), list, settings), refused(100));
                not_made(ffi::create_banded_manual_ranges_from_ramp(&ramp(), list, settings), refused(100));
            }
            for keys in [vec![1, 2], vec![1, i64::MAX], vec![0; 300]] {
                not_made(ffi::create_categoric_for_value_list(&greys(2), &keys, settings), refused(100));
                not_made(ffi::create_categoric_for_value_list_from_ramp(&ramp(), &keys, settings), refused(100));
            }
            for end in [2, 1000, i64::MAX] {
                not_made(ffi::create_categoric_for_value_range(&greys(2), 1, end, settings), refused(100));
                not_made(ffi::create_categoric_for_value_range_from_ramp(&ramp(), -1, end, settings), refused(100));
            }
            not_made(ffi::create_banded_as_given(&[Band::default(); 65], settings), refused(100));
        }
    }
}

/// Words that are lent, which a refusal leaves as they were.
fn lent(count: usize) -> Vec<Color> {
    (0..count as u32).map(|at| Color::from_word(0x1234_0000 | at)).collect()
}

/// Every use of a record that all refuse alike, by the answers of the three types of sample.
#[track_caller]
fn every_use(record: &LegendRecord, given: u32, answer: LegendAnswer) {
    macro_rules! uses {
        ($type:ty, $color:ident, $paint:ident, $paint_lanes:ident) => {
            let color = ffi::$color(record, 1 as $type, given, 1 as $type);
            assert_eq!((color.answer, color.color), (answer, Color::TRANSPARENT));
            // The answer comes before the lane count, the scratch and the lengths.
            for (samples, places, lanes, spare) in
                [(8, 8, 8, 16), (8, 7, 8, 16), (0, 0, 4, 16), (8, 9, 5, 3), (4, 4, 0, 0)]
            {
                let raster = vec![1 as $type; samples];
                let (mut out, mut scratch) = (lent(places), lent(spare));
                assert_eq!(ffi::$paint(record, &raster, given, 1 as $type, &mut out), answer);
                assert_eq!(out, lent(places));
                let said = ffi::$paint_lanes(record, lanes, &raster, given, 1 as $type, &mut out, &mut scratch);
                assert_eq!((said, out, scratch), (answer, lent(places), lent(spare)));
            }
        };
    }
    uses!(f32, color_for_f32, paint_f32, paint_lanes_f32);
    uses!(u8, color_for_u8, paint_u8, paint_lanes_u8);
    uses!(i16, color_for_i16, paint_i16, paint_lanes_i16);
}

/// The two that take nothing but a record.
#[track_caller]
fn whole_uses(record: &LegendRecord, answer: LegendAnswer) {
    let range = ffi::total_value_range(record);
    assert_eq!((range.answer, range.start.to_bits(), range.end.to_bits()), (answer, 0, 0));
    let list = ffi::color_list(record);
    assert_eq!((list.answer, list.colors), (answer, [Color::TRANSPARENT; 256]));
}

/// Records of each kind whose counts are at most their capacities.
fn sound() -> [LegendRecord; 3] {
    let parts = [
        Parts::Linear(LegendLinear { start: 0.0, end: 1.0, cmap: ramp() }),
        Parts::Banded(LegendBanded { bands: [Band { start: 0.0, end: 2.0, color: GREY }; 64], count: 64 }),
        Parts::Categoric(LegendCategoric { count: 256, lookup_count: 513, ..LegendCategoric::EMPTY }),
    ];
    parts.map(|parts| *Legend::from_parts(parts, Settings::default()).record())
}

/// Records that 16 refuses: the count of the record's own kind alone counts.
fn above_capacity() -> Vec<LegendRecord> {
    let [_, banded, categoric] = sound();
    let mut all = vec![];
    for above in [1, 2, 1000, usize::MAX - 600] {
        all.push(LegendRecord { banded: LegendBanded { count: 64 + above, ..banded.banded }, ..banded });
        let stored = categoric.categoric;
        all.push(LegendRecord { categoric: LegendCategoric { count: 256 + above, ..stored }, ..categoric });
        all.push(LegendRecord { categoric: LegendCategoric { lookup_count: 513 + above, ..stored }, ..categoric });
        let out_of_range = LegendCategoric { count: 256 + above, keys: [i64::MAX; 256], ..stored };
        all.push(LegendRecord { categoric: out_of_range, ..categoric });
    }
    all
}

/// 16, before 14, 15, 13 and 17.
#[test]
fn count_above_capacity() {
    for record in above_capacity() {
        every_use(&record, 0, refused(16));
        every_use(&record, 1, refused(16));
        whole_uses(&record, refused(16));
        // The counts of other kinds are not looked at.
        let linear = LegendRecord { kind: 0, ..record };
        assert_eq!(ffi::color_for_f32(&linear, 0.0, 0, 0.0).answer, refused(0));
        assert_eq!(ffi::total_value_range(&linear).answer, refused(0));
    }
    for record in sound() {
        assert_eq!(ffi::color_for_f32(&record, 0.0, 0, 0.0).answer, refused(0));
        assert_eq!(ffi::color_list(&record).answer, refused(0));
    }
}

/// 17 for a stored key, in the two calls that turn keys into f32, and in no other.
#[test]
fn stored_key_out_of_range() {
    for key in [-16_777_217, 16_777_217, i64::MIN, i64::MAX] {
        for first in [0, 1, 200, 255] {
            let mut stored = LegendCategoric { count: 256, ..LegendCategoric::EMPTY };
            stored.keys[first..].fill(key);
            let legend = Legend::from_parts(Parts::Categoric(stored), Settings::default());
            whole_uses(legend.record(), refused_at(17, first));
            assert_eq!(legend.color_list(), Err(Refusal::KeyOutOfRange { key: first }));
            assert_eq!(legend.color_for_value(1.0f32, None), Ok(Color::TRANSPARENT));
            // Beyond the count nothing is looked at.
            let shorter = LegendCategoric { count: first, ..stored };
            let shorter = Legend::from_parts(Parts::Categoric(shorter), Settings::default());
            assert_eq!(shorter.total_value_range(), Ok(0.0..=0.0));
        }
    }
}

/// 100 for a flag of a record, then 101 for its kind, then 100 for the flag of a nodata value; all before 16.
#[test]
fn flags_and_kinds_of_records() {
    for wrong in [2, 3, 256, u32::MAX] {
        for record in sound().into_iter().chain(above_capacity()) {
            every_use(&record, wrong, refused(100));
            let settings = record.settings;
            let flagged = [
                LegendSettings { has_low: wrong, ..settings },
                LegendSettings { has_high: wrong, ..settings },
                LegendSettings { zero_is_nodata: wrong, ..settings },
            ];
            for settings in flagged {
                for kind in [record.kind, 3, u32::MAX] {
                    let flagged = LegendRecord { kind, settings, ..record };
                    every_use(&flagged, 0, refused(100));
                    whole_uses(&flagged, refused(100));
                }
            }
            for kind in [3, 4, 256, u32::MAX] {
                let unknown = LegendRecord { kind, ..record };
                for given in [0, 1, wrong] {
                    every_use(&unknown, given, refused(101));
                }
                whole_uses(&unknown, refused(101));
            }
        }
    }
}

/// 13 for a plain painting; 14 before 15 before 13 for lanes, for each type of sample. The buffers are as they were.
#[test]
fn buffers_of_paintings() {
    macro_rules! buffers {
        ($type:ty, $paint:ident, $paint_lanes:ident) => {
            for record in sound() {
                for (samples, places) in [(0, 1), (1, 0), (8, 7), (8, 9), (8, 8)] {
                    let raster = vec![1 as $type; samples];
                    let mut out = lent(places);
                    let answer = ffi::$paint(&record, &raster, 0, 0 as $type, &mut out);
                    assert_eq!(answer, refused(if samples == places { 0 } else { 13 }));
                    assert_eq!(out == lent(places), samples != places);
                    for lanes in [0, 1, 2, 3, 4, 5, 8, 15, 16, 17, 32, usize::MAX] {
                        for spare in [0, 1, 15, 16, 17] {
                            let (mut out, mut scratch) = (lent(places), lent(spare));
                            let answer =
                                ffi::$paint_lanes(&record, lanes, &raster, 0, 0 as $type, &mut out, &mut scratch);
                            let number = match () {
                                () if ![4, 8, 16].contains(&lanes) => 14,
                                () if spare < 16 => 15,
                                () if samples != places => 13,
                                () => 0,
                            };
                            assert_eq!(answer, refused(number));
                            assert_eq!((out == lent(places), scratch.len()), (number != 0, spare));
                            let chunk = if number == 0 && samples >= lanes { lanes } else { 0 };
                            assert_eq!(scratch[chunk..], lent(spare)[chunk..]);
                        }
                    }
                }
            }
        };
    }
    buffers!(f32, paint_f32, paint_lanes_f32);
    buffers!(u8, paint_u8, paint_lanes_u8);
    buffers!(i16, paint_i16, paint_lanes_i16);
    let legend = Legend::linear(&greys(2), 0.0..=1.0, Settings::default()).unwrap();
    let (mut out, mut scratch) = (lent(8), lent(15));
    let short = legend.paint_lanes(Lanes::Eight, &[0u8; 8], None, &mut out, &mut scratch);
    assert_eq!((short, out, scratch), (Err(Refusal::ScratchTooShort), lent(8), lent(15)));
}

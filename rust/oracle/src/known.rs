//! Facts about the reference that other places lean on. Where the text is absent each test is ignored.

use crate::*;
use std::collections::HashSet;
use std::panic::catch_unwind;

/// G of the examples: entry i is i, i, i, 255.
fn grey() -> [u32; 256] {
    std::array::from_fn(|i| (i as u32 * 0x0001_0101) | 0xff00_0000)
}

const A: u32 = 0xff00_00aa;
const B: u32 = 0xff00_bb00;
const CONFIG: Config = Config { nodata_color: 1, low: Some(2), high: Some(3), zero_is_nodata: false };

#[test]
#[cfg_attr(not(text), ignore = "the reference's text is absent")]
fn palettes() {
    let all: Vec<Vec<u32>> = (0..32).map(palette).collect();
    assert_eq!(palette_names().len(), 32);
    assert_eq!(all.iter().map(Vec::len).sum::<usize>(), 304);
    assert!(all.iter().flatten().all(|word| word >> 24 == 255));
    assert_eq!(all[16], all[15]);
    assert_eq!((palette_names()[15], palette_names()[16]), ("PURPLES", "RD_BU"));
}

#[test]
#[cfg_attr(not(text), ignore = "the reference's text is absent")]
fn presets_are_the_palettes_first() {
    assert_eq!(preset_count(), 60);
    for number in 0..32 {
        let preset = Ramp::create(&Colors::Preset(number, false)).unwrap().entries();
        assert_eq!(preset, Ramp::from_list(&palette(number)).unwrap().entries(), "palette {number}");
    }
    let ramps: HashSet<_> = (0..60).map(|n| Ramp::create(&Colors::Preset(n, false)).unwrap().entries()).collect();
    assert_eq!(ramps.len(), 59, "all differ but RD_BU and PURPLES");
}

#[test]
#[cfg_attr(not(text), ignore = "the reference's text is absent")]
fn last_color_of_a_ramp() {
    let transparent: Vec<usize> = (1..=64)
        .filter(|&count| {
            let made = Legend::equal_bands(count, &Colors::Preset(0, false), 0.0, 1.0, CONFIG).unwrap();
            let Record::Banded(bands) = made.record() else { panic!("bands were asked for") };
            bands[count - 1].2 == 0
        })
        .collect();
    let known = [11, 12, 15, 19, 21, 23, 25, 26, 27, 30, 31, 35, 37, 39, 43, 44, 53, 60];
    assert_eq!(transparent, known);
}

#[test]
#[cfg_attr(not(text), ignore = "the reference's text is absent")]
fn panics() {
    for text in ["#0é000", "#€000", "#00€0"] {
        assert!(catch_unwind(|| hex(text)).is_err(), "{text}");
    }
    let bands = || Legend::equal_bands(usize::MAX, &Colors::Preset(0, false), 0.0, 1.0, CONFIG).is_ok();
    assert!(catch_unwind(bands).is_err());
    let no_table = || {
        let made = Legend::categories(&[-1], &Colors::List(vec![A]), CONFIG).unwrap();
        made.paint_kernel(4, &[0.0f32; 4], None, &mut [0; 4]);
    };
    assert!(catch_unwind(no_table).is_err());
}

#[test]
#[cfg_attr(not(text), ignore = "the reference's text is absent")]
fn counts_wrap() {
    let made = Legend::category_range(i64::MIN, i64::MAX, &Colors::List(vec![]), CONFIG).unwrap();
    assert_eq!(made.record(), Record::Categoric { categories: vec![], table: None });
}

#[test]
#[cfg_attr(not(text), ignore = "the reference's text is absent")]
fn refusals() {
    let number = |answer: Answer<Legend>| answer.err().expect("a refusal").number();
    let list = |count: usize| Colors::List(vec![A; count]);
    assert_eq!(hex("").unwrap_err().number(), 1);
    assert_eq!(hex("#00").unwrap_err().number(), 2);
    assert_eq!(hex("#0000g0").unwrap_err().number(), 3);
    assert_eq!(Ramp::from_list(&[A]).err().unwrap().number(), 4);
    assert_eq!(number(Legend::linear(&list(1), 1.0, 0.0, CONFIG)), 4);
    assert_eq!(number(Legend::linear(&list(2), 1.0, 0.0, CONFIG)), 7);
    assert_eq!(number(Legend::equal_bands(3, &list(2), 1.0, 0.0, CONFIG)), 7);
    assert_eq!(number(Legend::equal_bands(3, &list(2), 0.0, 1.0, CONFIG)), 9);
    assert_eq!(number(Legend::manual_ranges(&[(1.0, 1.0)], &list(2), CONFIG)), 10);
    assert_eq!(number(Legend::manual_ranges(&[(0.0, 1.0)], &list(2), CONFIG)), 9);
    assert_eq!(number(Legend::categories(&[1], &list(2), CONFIG)), 9);
    assert_eq!(number(Legend::category_range(1, 1, &list(2), CONFIG)), 9);
}

/// The twelve examples of the rules: both paintings go through them, so that this interface is seen to reach each.
#[test]
#[cfg_attr(not(text), ignore = "the reference's text is absent")]
fn examples() {
    let g = Ramp::ready_made(&grey());
    let lane = |fraction: f32| {
        let answers = [4, 8, 16].map(|lanes| {
            let mut out = [0; 16];
            g.get_color_simd(lanes, &[fraction; 16], &mut out);
            assert_eq!(out, [out[0]; 16]);
            out[0]
        });
        assert_eq!(answers, [answers[0]; 3]);
        answers[0]
    };
    for (fraction, plain, lanes) in [(0.5, 128, 128), (f32::from_bits(0x3b00_8080), 0, 1), (1.0, 255, 255)] {
        assert_eq!((g.get_color(fraction), lane(fraction)), (grey()[plain], grey()[lanes]));
    }
    assert_eq!((g.get_color(f32::NAN), lane(f32::NAN)), (0, 0));

    let linear = Legend::linear_ready_made(&grey(), 0.0, 255.0, CONFIG).unwrap();
    assert_eq!(linear.paint(&[-1e-4f32, -0.0002], None), [grey()[0], 2]);
    let point = Legend::linear_ready_made(&grey(), 5.0, 5.0, CONFIG).unwrap();
    assert_eq!(point.color_for_value(5u8, None), grey()[0]);

    let banded = Legend::bands(&[(0.0, 1.0, A), (2.0, 3.0, B)], CONFIG);
    assert_eq!(banded.paint(&[0.0f32, 1.0, 3.0, 3.5, -0.5], None), [A, 1, B, 3, 2]);
    let narrow = Legend::bands(&[(0.0, 0.00005, A), (0.00005, 1.0, B)], CONFIG);
    let (outside, inside) = ([0.00006f32, 7.0, 0.5, 0.5], [0.00006f32, 0.5, 0.5, 0.5]);
    assert_eq!(narrow.paint(&outside, None), [B, 3, B, B]);
    assert_eq!(narrow.paint_simd(4, &outside, None), [A, 3, B, B]);
    assert_eq!(narrow.paint_simd(4, &inside, None), [B, B, B, B]);

    let two = Colors::List(vec![A, B]);
    let table = Legend::categories(&[2, 5], &two, CONFIG).unwrap();
    assert_eq!(table.paint_simd(8, &[3.0f32, -0.5, 5.9, 6.0], None), [0, 0, B, 1]);
    let none = Legend::categories(&[-1, 5], &two, CONFIG).unwrap();
    assert_eq!(none.paint_simd(4, &[3.0f32, -1.5, 5.0, 5.0], None), [1, A, B, B]);
    let once = Legend::categories(&[7, 7], &two, CONFIG).unwrap();
    let Record::Categoric { categories, table: Some(table) } = once.record() else { panic!("a table was made") };
    assert_eq!((categories, table.len()), (vec![(7, B)], 8));
    let has_table = |key| {
        matches!(
            Legend::categories(&[key], &Colors::List(vec![A]), CONFIG).unwrap().record(),
            Record::Categoric { table: Some(_), .. }
        )
    };
    assert!(has_table(512) && !has_table(513));

    assert_eq!(hex("#+F0000"), Ok(0xff00_000f));
    let zero = Config { zero_is_nodata: true, ..CONFIG };
    let linear = Legend::linear_ready_made(&grey(), 0.0, 255.0, zero).unwrap();
    assert_eq!(linear.color_for_value(-0.0f32, None), 1);
}

/// Points that the rules leave to the text.
#[test]
#[cfg_attr(not(text), ignore = "the reference's text is absent")]
fn corners() {
    // A linear record that starts above its end: lanes skip the test of start against end.
    let turned = Legend::linear_stored(&grey(), 1.00005, 1.0, CONFIG);
    assert_eq!(turned.paint(&[1.00008f32; 4], None), [grey()[0]; 4]);
    assert_eq!(turned.paint_simd(4, &[1.00008f32; 4], None), [grey()[255]; 4]);
    // Within E is a rounded difference, strictly below E, and NaN is not within.
    let least = Legend::bands(&[(f32::from_bits(1), f32::from_bits(2), A)], CONFIG);
    assert_eq!(least.paint(&[1e-4f32; 4], None), [3; 4]);
    assert_eq!(least.paint_simd(4, &[1e-4f32; 4], None), [3; 4]);
    let endless = Legend::bands(&[(0.0, f32::INFINITY, A)], CONFIG);
    assert_eq!(endless.paint(&[f32::INFINITY; 4], None), [1; 4]);
    assert_eq!(endless.paint_simd(4, &[f32::INFINITY; 4], None), [1; 4]);
    // Categories without a table are painted plainly.
    let stored = Legend::categories_stored(&[(3, A), (-3, B)], None, CONFIG);
    assert_eq!(stored.record(), Record::Categoric { categories: vec![(-3, B), (3, A)], table: None });
    assert_eq!(stored.paint_simd(16, &[-3i16, 3, 0, 512], Some(0)), [B, A, 1, 1]);
}

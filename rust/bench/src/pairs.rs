//! Legends on both sides.

use legend::{Color, Legend, Ramp, Settings};
use oracle::{Colors, Config};

/// How a raster is painted.
#[derive(Debug, Clone, Copy, PartialEq, Eq)]
pub enum How {
    Plain,
    Lanes(usize),
}

/// One legend on both sides.
pub struct Pair {
    pub name: &'static str,
    /// The values that it is about.
    pub range: (f32, f32),
    /// Whether lanes have a rule of their own.
    pub lanes: bool,
    pub ours: Legend,
    pub theirs: oracle::Legend,
}

const CONFIG: Config =
    Config { nodata_color: 0, low: Some(0xff00_0002), high: Some(0xff00_0003), zero_is_nodata: false };

fn settings() -> Settings {
    Settings {
        nodata_color: Color::TRANSPARENT,
        low_color: CONFIG.low.map(Color::from_word),
        high_color: CONFIG.high.map(Color::from_word),
        zero_is_nodata: false,
    }
}

impl Pair {
    /// The five legends, linear first. All have their colours of the reference's preset 22, SPECTRAL.
    pub fn all() -> Vec<Pair> {
        let preset = Colors::Preset(22, false);
        let entries = oracle::Ramp::create(&preset).expect("a preset").entries();
        let ramp = &Ramp::from_entries(entries.map(Color::from_word));
        let linear = Pair {
            name: "linear",
            range: (0.0, 100.0),
            lanes: true,
            ours: Legend::linear(ramp, 0.0..=100.0, settings()).expect("a legend"),
            theirs: oracle::Legend::linear(&preset, 0.0, 100.0, CONFIG).expect("a legend"),
        };
        let banded = |name, count| Pair {
            name,
            range: (0.0, 100.0),
            lanes: true,
            ours: Legend::equal_bands(count, ramp, 0.0..=100.0, settings()).expect("a legend"),
            theirs: oracle::Legend::equal_bands(count, &preset, 0.0, 100.0, CONFIG).expect("a legend"),
        };
        let categoric = |name, keys: Vec<i64>, lanes| Pair {
            name,
            range: (keys[0] as f32, keys[keys.len() - 1] as f32),
            lanes,
            ours: Legend::categories_for_values(ramp, &keys, settings()).expect("a legend"),
            theirs: oracle::Legend::categories(&keys, &preset, CONFIG).expect("a legend"),
        };
        vec![
            linear,
            banded("10 bands", 10),
            banded("64 bands", 64),
            categoric("100 keys, table", (0..100).collect(), true),
            categoric("256 keys, no table", (0..256).map(|key| 3 * key - 384).collect(), false),
        ]
    }
}

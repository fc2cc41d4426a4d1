//! What is private in colormap.rs: the palettes and a ramp's entries.

use super::*;

/// The visible colour lists with their names, in the order of the text.
pub const PALETTES: [(&str, &[Color]); 32] = [
    ("BLUES", &cmap::BLUES),
    ("BR_BG", &cmap::BR_BG),
    ("BU_GN", &cmap::BU_GN),
    ("BU_PU", &cmap::BU_PU),
    ("GN_BU", &cmap::GN_BU),
    ("GREENS", &cmap::GREENS),
    ("GREYS", &cmap::GREYS),
    ("ORANGES", &cmap::ORANGES),
    ("OR_RD", &cmap::OR_RD),
    ("PI_YG", &cmap::PI_YG),
    ("PR_GN", &cmap::PR_GN),
    ("PU_BU", &cmap::PU_BU),
    ("PU_BU_GN", &cmap::PU_BU_GN),
    ("PU_OR", &cmap::PU_OR),
    ("PU_RD", &cmap::PU_RD),
    ("PURPLES", &cmap::PURPLES),
    ("RD_BU", &cmap::RD_BU),
    ("RD_GY", &cmap::RD_GY),
    ("RD_PU", &cmap::RD_PU),
    ("RD_YL_BU", &cmap::RD_YL_BU),
    ("RD_YL_GN", &cmap::RD_YL_GN),
    ("REDS", &cmap::REDS),
    ("SPECTRAL", &cmap::SPECTRAL),
    ("YL_GN", &cmap::YL_GN),
    ("YL_GN_BU", &cmap::YL_GN_BU),
    ("YL_OR_BR", &cmap::YL_OR_BR),
    ("YL_OR_RD", &cmap::YL_OR_RD),
    ("ACCENT", &cmap::ACCENT),
    ("DARK2", &cmap::DARK2),
    ("PAIRED", &cmap::PAIRED),
    ("PASTEL1", &cmap::PASTEL1),
    ("PASTEL2", &cmap::PASTEL2),
];

/// The presets: those of the palettes in the same order, then the others.
pub fn presets() -> Vec<ColorMapPreset> {
    let of_name = |name: &str| ColorMapPreset::from_str(&name.replace('_', "").to_lowercase());
    let palettes = PALETTES.iter().map(|palette| palette.0);
    let presets: Vec<_> = palettes.chain(OTHERS).map(|name| of_name(name).expect("a preset's name")).collect();
    presets
}

const OTHERS: [&str; 28] = [
    "bone",
    "cool",
    "copper",
    "gray",
    "hot",
    "hsv",
    "pink",
    "jet",
    "spring",
    "summer",
    "autumn",
    "winter",
    "wistia",
    "nipyspectral",
    "gistearth",
    "gistncar",
    "giststern",
    "terrain",
    "rainbow",
    "turbo",
    "set1",
    "set2",
    "set3",
    "tab10",
    "tab20",
    "tab20b",
    "tab20c",
    "binary",
];

pub fn entries(map: &ProcessedColorMap<256>) -> [Color; 256] {
    map.cmap
}

/// The lane lookup over whole chunks.
pub fn get_color_simd<S: Simd>(map: &ProcessedColorMap<256>, simd: S, fractions: &[f32], out: &mut [u32]) {
    use fearless_simd::SimdBase;
    let lanes = <S::f32s as SimdBase<S>>::LEN;
    assert!(fractions.len() % lanes == 0 && fractions.len() == out.len());
    for (chunk, out) in fractions.chunks_exact(lanes).zip(out.chunks_exact_mut(lanes)) {
        map.get_color_simd(simd, S::f32s::from_fn(simd, |i| chunk[i])).store_slice(out);
    }
}

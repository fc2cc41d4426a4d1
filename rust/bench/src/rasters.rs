//! The rasters, the same in every run.

/// Of a large raster: 1,024 by 1,024.
pub const PIXELS: usize = 1 << 20;

/// The nodata value that is given; one sample in 64 of a random raster has it.
pub const NODATA: f32 = -9999.0;

/// How far a raster goes beyond the legend's range on either side.
const BEYOND: f32 = 0.05;

/// A fraction of the range, with the part beyond.
fn at((start, end): (f32, f32), fraction: f32) -> f32 {
    start + (end - start) * (fraction * (1.0 + 2.0 * BEYOND) - BEYOND)
}

/// Waves: neighbours differ little.
pub fn smooth(pixels: usize, range: (f32, f32)) -> Vec<f32> {
    let wave = |pixel: usize| {
        let (x, y) = ((pixel % 1024) as f32, (pixel / 1024) as f32);
        0.5 + 0.25 * (x * 0.011).sin() + 0.25 * (y * 0.007 + x * 0.002).cos()
    };
    (0..pixels).map(|pixel| at(range, wave(pixel))).collect()
}

/// Neighbours have nothing to do with each other.
pub fn random(pixels: usize, range: (f32, f32)) -> Vec<f32> {
    let mut state = 1u64;
    let mut word = || {
        state = state.wrapping_add(0x9e37_79b9_7f4a_7c15);
        let z = (state ^ (state >> 30)).wrapping_mul(0xbf58_476d_1ce4_e5b9);
        let z = (z ^ (z >> 27)).wrapping_mul(0x94d0_49bb_1331_11eb);
        z ^ (z >> 31)
    };
    let mut sample = |_| {
        let word = word();
        if word >> 58 == 0 { NODATA } else { at(range, (word & 0xff_ffff) as f32 / (1 << 24) as f32) }
    };
    (0..pixels).map(&mut sample).collect()
}

//! Timing: rounds that alternate between the two sides, and the median of each.

use crate::pairs::{How, Pair};
use crate::rasters::NODATA;
use legend::{Color, Lanes};
use oracle::Canvas;
use std::hint::black_box;
use std::time::Instant;

/// One measurement: nanoseconds for one painting on either side.
pub struct Row {
    pub legend: &'static str,
    pub how: How,
    pub raster: &'static str,
    pub pixels: usize,
    pub ours: f64,
    pub theirs: f64,
}

impl Row {
    /// Ours over theirs: below 1 ours is faster.
    pub fn ratio(&self) -> f64 {
        self.ours / self.theirs
    }
}

pub fn median(mut times: Vec<f64>) -> f64 {
    times.sort_by(f64::total_cmp);
    times[times.len() / 2]
}

/// Nanoseconds for one of `calls` calls.
pub fn clocked(calls: usize, mut call: impl FnMut()) -> f64 {
    let began = Instant::now();
    for _ in 0..calls {
        call();
    }
    began.elapsed().as_nanos() as f64 / calls as f64
}

/// Buffers that all rounds of a row share.
struct Buffers {
    out: Vec<Color>,
    scratch: [Color; 16],
    canvas: Canvas,
}

fn paint_ours(pair: &Pair, how: How, raster: &[f32], buffers: &mut Buffers) {
    let (out, nodata) = (&mut buffers.out, Some(NODATA));
    let painted = match how {
        How::Plain => pair.ours.paint(raster, nodata, out),
        How::Lanes(count) => {
            let lanes = Lanes::ALL.into_iter().find(|lanes| lanes.count() == count).expect("a lane count");
            pair.ours.paint_lanes(lanes, raster, nodata, out, &mut buffers.scratch)
        }
    };
    painted.expect("nothing is refused");
}

/// What a call of the reference allocates is freed at once, as its user would.
fn paint_theirs(pair: &Pair, how: How, raster: &[f32], buffers: &mut Buffers) {
    let nodata = Some(NODATA);
    match how {
        How::Plain => drop(black_box(pair.theirs.paint_bare(raster, nodata))),
        How::Lanes(lanes) if pair.lanes => pair.theirs.paint_kernel_bare(lanes, raster, nodata, &mut buffers.canvas),
        How::Lanes(lanes) => drop(black_box(pair.theirs.paint_simd_bare(lanes, raster, nodata))),
    }
}

/// The colours of both sides are the same.
fn check(pair: &Pair, how: How, raster: &[f32], buffers: &mut Buffers) {
    paint_ours(pair, how, raster, buffers);
    let ours: Vec<u32> = buffers.out.iter().map(|color| color.word()).collect();
    let theirs = match how {
        How::Plain => pair.theirs.paint_bare(raster, Some(NODATA)).words(),
        How::Lanes(lanes) => pair.theirs.paint_simd_bare(lanes, raster, Some(NODATA)).words(),
    };
    assert!(ours == theirs, "{}, {how:?}: the colours differ", pair.name);
}

/// Times one legend over one raster. The first round warms up and does not count.
pub fn time(pair: &Pair, how: How, name: &'static str, raster: &[f32], rounds: usize, calls: usize) -> Row {
    let pixels = raster.len();
    let mut buffers = Buffers {
        out: vec![Color::TRANSPARENT; pixels],
        scratch: [Color::TRANSPARENT; 16],
        canvas: Canvas::new(pixels),
    };
    check(pair, how, raster, &mut buffers);
    let (mut ours, mut theirs) = (vec![], vec![]);
    for round in 0..=rounds {
        let mine = clocked(calls, || paint_ours(pair, how, black_box(raster), &mut buffers));
        black_box(&buffers.out);
        let other = clocked(calls, || paint_theirs(pair, how, black_box(raster), &mut buffers));
        black_box(&buffers.canvas);
        if round > 0 {
            ours.push(mine);
            theirs.push(other);
        }
    }
    Row { legend: pair.name, how, raster: name, pixels, ours: median(ours), theirs: median(theirs) }
}

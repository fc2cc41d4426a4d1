//! Both paintings, over whole rasters. The buffers have guard words on either side, which are compared too.

use super::samples::{Drawn, edges, far_keys, nodata_of, raster_length};
use super::{Asked, Kinds, ask, fewer, said, smaller_asked};
use crate::engine::{Inputs, Subject, bits};
use crate::random::Random;
use crate::subjects::{DONE, refusal_words};
use legend::{Color, Lanes};
use oracle::Record;
use std::marker::PhantomData;

/// A raster to paint.
#[derive(Debug, Clone)]
pub struct Painting<T> {
    pub asked: Asked,
    /// `None`: plainly.
    pub lanes: Option<Lanes>,
    pub raster: Vec<T>,
    pub nodata: Option<T>,
}

pub struct Paintings<T>(PhantomData<T>);

impl<T> Default for Paintings<T> {
    fn default() -> Paintings<T> {
        Paintings(PhantomData)
    }
}

/// Words on either side of a buffer.
const GUARD: usize = 16;

/// How long the scratch is: more than it has to be, so that its rest can be watched.
const SCRATCH: usize = 19;

/// The output of a raster, with its guards.
fn output(length: usize) -> Vec<u32> {
    buffer(0x5a5a_0000, length)
}

/// The scratch with its guards, other words than the output's.
fn scratch() -> Vec<u32> {
    buffer(0xa5a5_0000, SCRATCH)
}

fn buffer(first: u32, length: usize) -> Vec<u32> {
    (0..(length + 2 * GUARD) as u32).map(|at| first + at).collect()
}

/// The part that is lent.
fn lent(words: &mut [u32]) -> &mut [u32] {
    let end = words.len() - GUARD;
    &mut words[GUARD..end]
}

impl<T: Drawn> Subject for Paintings<T> {
    type Input = Painting<T>;

    fn cases(&self, painting: &Painting<T>) -> u64 {
        painting.asked.added().is_none().into()
    }

    fn ours(&self, painting: &Painting<T>, words: &mut Vec<u64>) {
        let Painting { asked, lanes, raster, nodata } = painting;
        let Some(legend) = said(asked.ours().map_err(refusal_words), words) else { return };
        let (mut out, mut scratch) = (output(raster.len()), scratch());
        let colors = Color::of_words(lent(&mut out));
        let answer = match lanes {
            None => legend.paint(raster, *nodata, colors),
            Some(lanes) => legend.paint_lanes(*lanes, raster, *nodata, colors, Color::of_words(lent(&mut scratch))),
        };
        said(answer.map_err(refusal_words), words);
        words.extend(out.into_iter().chain(scratch).map(u64::from));
    }

    fn theirs(&self, painting: &Painting<T>, words: &mut Vec<u64>) {
        let Painting { asked, lanes, raster, nodata } = painting;
        let Some(legend) = said(asked.theirs(), words) else { return };
        let (mut out, mut scratch) = (output(raster.len()), scratch());
        let painted = match lanes {
            None => legend.paint(raster, *nodata),
            Some(lanes) => legend.paint_simd(lanes.count(), raster, *nodata),
        };
        if let Some(lanes) = lanes.map(Lanes::count) {
            let last = painted.chunks_exact(lanes).last();
            let plain = matches!(legend.record(), Record::Categoric { table: None, .. });
            if let (Some(chunk), false) = (last, plain) {
                lent(&mut scratch)[..lanes].copy_from_slice(chunk);
            }
        }
        lent(&mut out).copy_from_slice(&painted);
        words.extend(DONE);
        words.extend(out.into_iter().chain(scratch).map(u64::from));
    }

    fn smaller(&self, painting: &Painting<T>) -> Vec<Painting<T>> {
        let Painting { asked, lanes, raster, nodata } = painting;
        let rasters = fewer(raster).into_iter().map(|raster| Painting { raster, ..painting.clone() });
        let asked = smaller_asked(asked).into_iter().map(|asked| Painting { asked, ..painting.clone() });
        let without = nodata.is_some().then(|| Painting { nodata: None, ..painting.clone() });
        let narrower = Lanes::ALL.into_iter().filter(|other| lanes.is_some_and(|lanes| other.count() < lanes.count()));
        let narrower = narrower.map(|lanes| Painting { lanes: Some(lanes), ..painting.clone() });
        let plainer = |at: usize| {
            let other = move |sample: T| {
                let mut raster = raster.clone();
                raster[at] = sample;
                Painting { raster, ..painting.clone() }
            };
            raster[at].plainer().into_iter().map(other).collect::<Vec<_>>()
        };
        let plainer = (0..raster.len().min(16)).flat_map(plainer);
        rasters.chain(asked).chain(without).chain(narrower).chain(plainer).collect()
    }

    fn wanted(&self) -> &'static [&'static str] {
        let all = &[
            "a raster's length that is 2 mod 4",
            "a raster's length from 255 to 257",
            "a raster's length from 511 to 513",
            "a nodata value that is in no sample",
            "a key of a sample near 16,777,216",
            "a key of a sample near -16,777,216",
        ];
        if T::FAR { all } else { &all[..4] }
    }

    fn has(&self, painting: &Painting<T>) -> u64 {
        let Painting { asked, raster, nodata, .. } = painting;
        let Ok(legend) = asked.ours() else { return 0 };
        let keys: Vec<i64> = legend.categories().map(|category| category.0).collect();
        let samples: Vec<i64> = raster.iter().filter_map(|&sample| legend::key(sample.into())).collect();
        let far = if legend.table().is_none() { far_keys(&keys, &samples) } else { [false; 2] };
        bits([
            raster.len() % 4 == 2,
            (255..=257).contains(&raster.len()),
            (511..=513).contains(&raster.len()),
            nodata.is_some_and(|nodata| !raster.contains(&nodata)),
            far[0],
            far[1],
        ])
    }
}

/// Rasters at random, plainly and at 4, 8, 16 lanes in turn; many chunks lie inside the legend.
pub fn random<T: Drawn>(seed: u64, count: u64) -> Inputs<'static, Painting<T>> {
    Inputs::new(count, move |number| {
        let random = &mut Random::new(seed, number);
        let asked = ask(random, Kinds::All);
        let edges = edges(&asked);
        let mut inside = false;
        let sample = |at| {
            if at % 4 == 0 {
                inside = random.once_in(2) || inside && random.once_in(2);
            }
            T::draw(random, &edges, inside)
        };
        let raster: Vec<T> = (0..raster_length(&mut Random::new(!seed, number))).map(sample).collect();
        let nodata = nodata_of(random, &raster, &edges);
        let lanes = [None, Some(Lanes::Four), Some(Lanes::Eight), Some(Lanes::Sixteen)][number as usize % 4];
        Painting { asked, lanes, raster, nodata }
    })
}

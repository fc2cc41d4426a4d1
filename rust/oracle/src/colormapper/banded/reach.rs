//! What is private in banded.rs.

use super::*;
use crate::Record;

pub fn of_bands(bands: &[(f32, f32, u32)]) -> Banded {
    let band = |&(start, end, color): &(f32, f32, u32)| LegendBand::new(start..end, Color::from(color), String::new());
    Banded::new(bands.iter().map(band).collect())
}

pub fn record(mapper: &Banded) -> Record {
    let band = |band: &LegendBand| (band.range.start, band.range.end, band.color.to_bits());
    Record::Banded(mapper.bands.iter().map(band).collect())
}

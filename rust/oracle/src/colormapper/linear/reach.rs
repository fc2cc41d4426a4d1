//! What is private in linear.rs.

use super::*;
use crate::Record;

pub fn stored(value_range: Range<f32>, color_map: ProcessedColorMap) -> Linear {
    Linear { value_range, color_map }
}

pub fn record(mapper: &Linear) -> Record {
    let entries = crate::colormap::reach::entries(&mapper.color_map);
    Record::Linear {
        start: mapper.value_range.start,
        end: mapper.value_range.end,
        ramp: Box::new(entries.map(Color::to_bits)),
    }
}

use crate::ffi::{self, LegendAnswer, LegendColor, LegendRecord};
use crate::{Color, Lanes};

/// The type of a raster's samples: `f32`, `u8` or `i16`. Each becomes an `f32` without loss.
pub trait Sample: Calls {}

/// The calls for a type of sample. Not to be named outside, so that the library's three types are all there are.
pub trait Calls: Copy + Default {
    fn color(legend: &LegendRecord, value: Self, nodata: Option<Self>) -> LegendColor;
    fn paint(legend: &LegendRecord, raster: &[Self], nodata: Option<Self>, out: &mut [Color]) -> LegendAnswer;
    fn paint_lanes(
        legend: &LegendRecord,
        lanes: Lanes,
        raster: &[Self],
        nodata: Option<Self>,
        out: &mut [Color],
        scratch: &mut [Color],
    ) -> LegendAnswer;
}

/// A nodata value as C has it: a flag, and a value that counts where the flag is 1.
fn flat<T: Default>(nodata: Option<T>) -> (u32, T) {
    nodata.map_or((0, T::default()), |value| (1, value))
}

macro_rules! sample {
    ($type:ty, $color:ident, $paint:ident, $paint_lanes:ident) => {
        impl Sample for $type {}

        impl Calls for $type {
            fn color(legend: &LegendRecord, value: $type, nodata: Option<$type>) -> LegendColor {
                let (given, nodata) = flat(nodata);
                ffi::$color(legend, value, given, nodata)
            }

            fn paint(
                legend: &LegendRecord,
                raster: &[$type],
                nodata: Option<$type>,
                out: &mut [Color],
            ) -> LegendAnswer {
                let (given, nodata) = flat(nodata);
                ffi::$paint(legend, raster, given, nodata, out)
            }

            fn paint_lanes(
                legend: &LegendRecord,
                lanes: Lanes,
                raster: &[$type],
                nodata: Option<$type>,
                out: &mut [Color],
                scratch: &mut [Color],
            ) -> LegendAnswer {
                let (given, nodata) = flat(nodata);
                ffi::$paint_lanes(legend, lanes.count(), raster, given, nodata, out, scratch)
            }
        }
    };
}

sample!(f32, color_for_f32, paint_f32, paint_lanes_f32);
sample!(u8, color_for_u8, paint_u8, paint_lanes_u8);
sample!(i16, color_for_i16, paint_i16, paint_lanes_i16);

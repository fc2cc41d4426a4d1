//! What is private in legend.rs: the kernel of lane painting.

use super::*;

/// The kernel at 4, 8 or 16 lanes, for a legend of any kind.
pub fn kernel<T: Copy + NumCast>(legend: &Legend, lanes: usize, raster: &[T], nodata: Option<T>, out: &mut [Color]) {
    match legend {
        Legend::Linear(legend) => at_lanes(legend, lanes, raster, nodata, out),
        Legend::Banded(legend) => at_lanes(legend, lanes, raster, nodata, out),
        Legend::CategoricNumeric(legend) => at_lanes(legend, lanes, raster, nodata, out),
        Legend::CategoricString(_) => unreachable!("no call makes one"),
    }
}

fn at_lanes<M: ColorMapper, T: Copy + NumCast>(
    legend: &MappedLegend<M>,
    lanes: usize,
    raster: &[T],
    nodata: Option<T>,
    out: &mut [Color],
) {
    let unmappable = legend.mapper.compute_unmappable_colors(&legend.mapping_config);
    match lanes {
        4 => legend.apply_to_data_kernel(fearless_simd::Lanes::<4>, raster, out, nodata, &unmappable),
        8 => legend.apply_to_data_kernel(fearless_simd::Lanes::<8>, raster, out, nodata, &unmappable),
        16 => legend.apply_to_data_kernel(fearless_simd::Lanes::<16>, raster, out, nodata, &unmappable),
        _ => panic!("no lane count: {lanes}"),
    }
}

use crate::ffi;

/// A sample as the key of a category: truncated toward zero. `None` for NaN, below -2^63, and from 2^63 on.
///
/// ```
/// assert_eq!(legend::key(-5.9), Some(-5));
/// assert_eq!(legend::key(f32::INFINITY), None);
/// ```
pub fn key(sample: f32) -> Option<i64> {
    let cut = ffi::to_i64(sample);
    (cut.whole == 1).then_some(cut.key)
}

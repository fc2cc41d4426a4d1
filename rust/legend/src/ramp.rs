use crate::{Color, Palette, Refusal, ffi};
use std::fmt;

/// A ramp: 256 colours that a fraction from 0 to 1 is looked up in.
///
/// ```
/// use legend::{Color, Palette, Ramp};
/// let ramp = Ramp::from_palette(Palette::Blues);
/// assert_eq!(ramp.color(0.0), Palette::Blues.colors().next().unwrap());
/// assert_eq!(ramp.colors()[255], ramp.color(1.0));
/// assert_eq!(ramp.color(f32::NAN), Color::TRANSPARENT);
/// ```
#[derive(Clone, Copy, PartialEq, Eq, Hash)]
pub struct Ramp([Color; 256]);

impl Ramp {
    /// A list of 2 to 256 colours spread over the ramp, in whole numbers, alpha too.
    ///
    /// ```
    /// use legend::{Color, Ramp, Refusal};
    /// assert_eq!(Ramp::from_colors(&[Color::TRANSPARENT]), Err(Refusal::TooFewColors));
    /// ```
    pub fn from_colors(colors: &[Color]) -> Result<Ramp, Refusal> {
        let made = ffi::ramp_from_list(colors);
        Refusal::unless(made.answer, Ramp(made.colors))
    }

    /// A palette spread over the ramp.
    pub fn from_palette(palette: Palette) -> Ramp {
        Ramp(ffi::ramp_from_palette(palette.number()).colors)
    }

    /// A ramp of the entries themselves.
    ///
    /// ```
    /// use legend::{Color, Ramp};
    /// let grey = Ramp::from_entries(std::array::from_fn(|i| Color::rgb(i as u8, i as u8, i as u8)));
    /// assert_eq!(grey.color(0.5), Color::rgb(128, 128, 128));
    /// ```
    pub const fn from_entries(entries: [Color; 256]) -> Ramp {
        Ramp(entries)
    }

    /// The entries.
    pub const fn colors(&self) -> &[Color; 256] {
        &self.0
    }

    /// The colour at a fraction: entry fraction × 255 to the nearest, halves up. Outside 0 to 1, and for NaN,
    /// [`Color::TRANSPARENT`].
    pub fn color(&self, fraction: f32) -> Color {
        ffi::get_color(&self.0, fraction)
    }

    /// The same by the rule of lane painting: entry floor(fraction × 255 + 0.5), the sum rounded to `f32`, at most 255.
    /// The two differ at one fraction, 65,793 / 2^25.
    ///
    /// ```
    /// use legend::{Color, Ramp};
    /// let grey = Ramp::from_entries(std::array::from_fn(|i| Color::rgb(i as u8, i as u8, i as u8)));
    /// let close = 65_793.0 / 33_554_432.0;
    /// assert_eq!((grey.color(close).r(), grey.lane_color(close).r()), (0, 1));
    /// ```
    pub fn lane_color(&self, fraction: f32) -> Color {
        ffi::get_color_simd(&self.0, fraction)
    }
}

impl fmt::Debug for Ramp {
    fn fmt(&self, f: &mut fmt::Formatter<'_>) -> fmt::Result {
        f.debug_list().entries(self.0).finish()
    }
}

//! Legends that colour rasters, over a library that is proved to do what its definitions say.
//!
//! A [`Legend`] is linear, banded or categoric. It is made of [`Settings`] and of colours, which are a list or a
//! [`Ramp`] of 256 entries, and paints rasters of `f32`, `u8` or `i16` into lent buffers, sample by sample or in lanes.
//! It is stored as a card, one file of at most 3,349 bytes, and read back ([`Legend::to_card`], [`Legend::from_card`]).
//! A [`Color`] is read from text or taken from a [`Palette`]. What a call refuses is a [`Refusal`], with the number of
//! the table of refusals and an index where that names one; lent buffers are then as they were. Nothing here panics on
//! an argument, and no call of the library allocates. Calls may run on any threads at once: the library has no state.
//!
//! The default floating-point environment is assumed, as everywhere in Rust. A call of the library takes less than 40,000
//! bytes of stack (`c/stack.c` measures it); the functions of this crate hold records of 6,984 bytes beside that.
//!
//! ```
//! use legend::{Color, Legend, Palette, Ramp, Refusal, Settings};
//!
//! let blues = Ramp::from_palette(Palette::Blues);
//! let settings = Settings { high_color: Some("#FF00FF".parse()?), ..Settings::default() };
//! let legend = Legend::linear(&blues, 0.0..=40.0, settings)?;
//!
//! let rain = [0.0f32, 10.0, 40.0, 41.0, f32::NAN];
//! let mut out = [Color::TRANSPARENT; 5];
//! legend.paint(&rain, None, &mut out)?;
//! assert_eq!(out[1], blues.color(0.25));
//! assert_eq!(out[3..], [Color::rgb(255, 0, 255), Color::TRANSPARENT]);
//!
//! let short = legend.paint(&rain, None, &mut out[..4]);
//! assert_eq!(short, Err(Refusal::OutputLengthDiffers));
//! # Ok::<(), Refusal>(())
//! ```

#![deny(missing_docs)]
#![deny(unsafe_code)]

mod card;
mod color;
#[allow(unsafe_code)]
pub mod ffi;
mod key;
mod legend;
mod palette;
mod ramp;
mod refusal;
mod sample;
mod settings;

pub use color::Color;
pub use key::key;
pub use legend::{Band, Colors, Kind, Lanes, Legend, Parts};
pub use palette::Palette;
pub use ramp::Ramp;
pub use refusal::Refusal;
pub use sample::Sample;
pub use settings::Settings;

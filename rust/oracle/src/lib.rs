//! The reference: the Rust text unchanged, built for release, and an interface to it in plain numbers. Colours are words
//! (red lowest). The text is not in the repository: build.rs copies it from a folder beside it, and where that is absent
//! `PRESENT` is false and every call panics.

#![cfg_attr(not(text), allow(dead_code, unused))]

#[cfg(all(debug_assertions, not(doc)))]
compile_error!("the reference is the text built for release");

use std::fmt;

#[cfg(text)]
use color::Color;

/// Whether the text was there when this was built.
pub const PRESENT: bool = cfg!(text);

/// A module of the text, with what this crate adds below it to reach what is private there.
macro_rules! text {
    ($name:ident) => {
        #[cfg(text)]
        #[allow(warnings, clippy::all)]
        mod $name {
            include!(concat!(env!("OUT_DIR"), "/text/", stringify!($name), ".rs"));
        }
    };
    ($name:ident reach) => {
        #[cfg(text)]
        #[allow(warnings, clippy::all)]
        mod $name {
            include!(concat!(env!("OUT_DIR"), "/text/", stringify!($name), ".rs"));
            pub(crate) mod reach;
        }
    };
}

text!(allocate);
text!(cast);
text!(color);
text!(colormap reach);
text!(colormapper reach);
text!(interpolate);
text!(legend reach);

/// The text's errors, which its own crate declares in a file that is not here.
#[derive(Debug)]
enum Error {
    InvalidArgument(String),
    Runtime(String),
}

type Result<T> = std::result::Result<T, Error>;

/// The text's answer, or a panic where the text is absent.
#[cfg(text)]
macro_rules! text_says {
    ($answer:expr) => {
        $answer
    };
}

#[cfg(not(text))]
macro_rules! text_says {
    ($answer:expr) => {
        panic!("the reference's text is not here")
    };
}

mod api;
#[cfg(test)]
mod known;

pub use api::*;

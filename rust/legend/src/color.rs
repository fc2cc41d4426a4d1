use crate::{Refusal, ffi};
use std::fmt;
use std::str::FromStr;

/// A colour, held as its word: red lowest, alpha highest.
///
/// ```
/// use legend::Color;
/// let c = Color::rgba(1, 2, 3, 4);
/// assert_eq!((c.r(), c.g(), c.b(), c.a()), (1, 2, 3, 4));
/// assert_eq!(c.word(), 0x0403_0201);
/// ```
#[derive(Clone, Copy, PartialEq, Eq, Hash, Default)]
#[repr(transparent)]
pub struct Color(u32);

impl Color {
    /// 0, 0, 0, 0.
    pub const TRANSPARENT: Color = Color(0);

    /// An opaque colour.
    pub const fn rgb(r: u8, g: u8, b: u8) -> Color {
        Color::rgba(r, g, b, 255)
    }

    /// A colour of its four channels.
    pub const fn rgba(r: u8, g: u8, b: u8, a: u8) -> Color {
        Color(u32::from_le_bytes([r, g, b, a]))
    }

    /// The colour of a word.
    pub const fn from_word(word: u32) -> Color {
        Color(word)
    }

    /// The colour's word.
    pub const fn word(self) -> u32 {
        self.0
    }

    /// Words as the colours that they are: a buffer of words can be lent to a painting.
    ///
    /// ```
    /// let mut words = [0u32; 2];
    /// legend::Color::of_words(&mut words)[1] = legend::Color::rgba(1, 2, 3, 4);
    /// assert_eq!(words, [0, 0x0403_0201]);
    /// ```
    pub fn of_words(words: &mut [u32]) -> &mut [Color] {
        ffi::colors_of_words(words)
    }

    /// Red.
    pub const fn r(self) -> u8 {
        self.0.to_le_bytes()[0]
    }

    /// Green.
    pub const fn g(self) -> u8 {
        self.0.to_le_bytes()[1]
    }

    /// Blue.
    pub const fn b(self) -> u8 {
        self.0.to_le_bytes()[2]
    }

    /// Alpha.
    pub const fn a(self) -> u8 {
        self.0.to_le_bytes()[3]
    }

    /// The colour of `#RRGGBB`, which is opaque, or of `#RRGGBBAA`. The text is bytes of any kind.
    ///
    /// ```
    /// use legend::{Color, Refusal};
    /// assert_eq!(Color::from_hex("#0A0b0C"), Ok(Color::rgb(10, 11, 12)));
    /// assert_eq!(Color::from_hex("#0A0b0C80").map(Color::a), Ok(128));
    /// assert_eq!(Color::from_hex("0A0B0C"), Err(Refusal::NotHexColor));
    /// ```
    pub fn from_hex(text: impl AsRef<[u8]>) -> Result<Color, Refusal> {
        let read = ffi::hex(text.as_ref());
        Refusal::unless(read.answer, read.color)
    }
}

/// As [`Color::from_hex`] reads it.
///
/// ```
/// let red: legend::Color = "#FF0000".parse()?;
/// assert_eq!(red, legend::Color::rgb(255, 0, 0));
/// # Ok::<(), legend::Refusal>(())
/// ```
impl FromStr for Color {
    type Err = Refusal;
    fn from_str(text: &str) -> Result<Color, Refusal> {
        Color::from_hex(text)
    }
}

/// As `#RRGGBBAA`.
impl fmt::Display for Color {
    fn fmt(&self, f: &mut fmt::Formatter<'_>) -> fmt::Result {
        write!(f, "#{:08X}", self.0.swap_bytes())
    }
}

/// As `#RRGGBBAA`.
impl fmt::Debug for Color {
    fn fmt(&self, f: &mut fmt::Formatter<'_>) -> fmt::Result {
        fmt::Display::fmt(self, f)
    }
}

use crate::{Color, Refusal, ffi};

/// A list of colours of the reference's own, in its order.
///
/// ```
/// use legend::Palette;
/// for palette in Palette::ALL {
///     assert!(palette.colors().all(|color| color.a() == 255));
/// }
/// ```
#[derive(Debug, Clone, Copy, PartialEq, Eq, Hash, PartialOrd, Ord)]
pub enum Palette {
    /// `BLUES`.
    Blues,
    /// `BR_BG`.
    BrBg,
    /// `BU_GN`.
    BuGn,
    /// `BU_PU`.
    BuPu,
    /// `GN_BU`.
    GnBu,
    /// `GREENS`.
    Greens,
    /// `GREYS`.
    Greys,
    /// `ORANGES`.
    Oranges,
    /// `OR_RD`.
    OrRd,
    /// `PI_YG`.
    PiYg,
    /// `PR_GN`.
    PrGn,
    /// `PU_BU`.
    PuBu,
    /// `PU_BU_GN`.
    PuBuGn,
    /// `PU_OR`.
    PuOr,
    /// `PU_RD`.
    PuRd,
    /// `PURPLES`.
    Purples,
    /// `RD_BU`, which holds the colours of `PURPLES`, unlike ColorBrewer.
    RdBu,
    /// `RD_GY`.
    RdGy,
    /// `RD_PU`.
    RdPu,
    /// `RD_YL_BU`.
    RdYlBu,
    /// `RD_YL_GN`.
    RdYlGn,
    /// `REDS`.
    Reds,
    /// `SPECTRAL`.
    Spectral,
    /// `YL_GN`.
    YlGn,
    /// `YL_GN_BU`.
    YlGnBu,
    /// `YL_OR_BR`.
    YlOrBr,
    /// `YL_OR_RD`.
    YlOrRd,
    /// `ACCENT`.
    Accent,
    /// `DARK2`.
    Dark2,
    /// `PAIRED`.
    Paired,
    /// `PASTEL1`.
    Pastel1,
    /// `PASTEL2`.
    Pastel2,
}

impl Palette {
    /// Every palette, by its number.
    pub const ALL: [Palette; 32] = [
        Palette::Blues,
        Palette::BrBg,
        Palette::BuGn,
        Palette::BuPu,
        Palette::GnBu,
        Palette::Greens,
        Palette::Greys,
        Palette::Oranges,
        Palette::OrRd,
        Palette::PiYg,
        Palette::PrGn,
        Palette::PuBu,
        Palette::PuBuGn,
        Palette::PuOr,
        Palette::PuRd,
        Palette::Purples,
        Palette::RdBu,
        Palette::RdGy,
        Palette::RdPu,
        Palette::RdYlBu,
        Palette::RdYlGn,
        Palette::Reds,
        Palette::Spectral,
        Palette::YlGn,
        Palette::YlGnBu,
        Palette::YlOrBr,
        Palette::YlOrRd,
        Palette::Accent,
        Palette::Dark2,
        Palette::Paired,
        Palette::Pastel1,
        Palette::Pastel2,
    ];

    /// The palette's number, 0 to 31.
    pub const fn number(self) -> usize {
        self as usize
    }

    /// The palette of a number.
    ///
    /// ```
    /// use legend::{Palette, Refusal};
    /// assert_eq!(Palette::from_number(31), Ok(Palette::Pastel2));
    /// assert_eq!(Palette::from_number(32), Err(Refusal::NoSuchPalette));
    /// ```
    pub fn from_number(number: usize) -> Result<Palette, Refusal> {
        Refusal::unless(ffi::palette(number).answer, number).map(|number| Palette::ALL[number])
    }

    /// The palette's colours, 8 to 12 of them.
    pub fn colors(self) -> impl ExactSizeIterator<Item = Color> + DoubleEndedIterator + Clone {
        let asked = ffi::palette(self.number());
        asked.colors.into_iter().take(asked.count)
    }
}

#[cfg(test)]
mod tests {
    use super::*;

    #[test]
    fn numbers_are_places() {
        for (number, palette) in Palette::ALL.into_iter().enumerate() {
            assert_eq!(palette.number(), number);
            assert_eq!(Palette::from_number(number), Ok(palette));
        }
    }
}

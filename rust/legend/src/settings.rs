use crate::Color;
use crate::ffi::LegendSettings;

/// What a legend makes of samples that it has no colour of its own for.
///
/// ```
/// use legend::{Color, Settings};
/// let settings = Settings { high_color: Some(Color::rgb(255, 0, 255)), ..Settings::default() };
/// assert_eq!(settings.nodata_color, Color::TRANSPARENT);
/// ```
#[derive(Debug, Clone, Copy, PartialEq, Eq, Hash, Default)]
pub struct Settings {
    /// The colour of NaN, of the nodata value, and of what else the legend says nothing of.
    pub nodata_color: Color,
    /// The colour below the legend. `None`: a linear legend's first, the first band's, or nodata where there
    /// are no bands. Categories have none, whatever this is.
    pub low_color: Option<Color>,
    /// The colour above the legend. `None`: a linear legend's last, the last band's, or nodata where there
    /// are no bands. Categories have none, whatever this is.
    pub high_color: Option<Color>,
    /// Whether samples that equal 0 are nodata, negative zero too.
    pub zero_is_nodata: bool,
}

impl Settings {
    /// As C has them.
    pub(crate) const fn flat(self) -> LegendSettings {
        let (has_low, low_color) = flag(self.low_color);
        let (has_high, high_color) = flag(self.high_color);
        LegendSettings {
            nodata_color: self.nodata_color,
            low_color,
            high_color,
            has_low,
            has_high,
            zero_is_nodata: self.zero_is_nodata as u32,
        }
    }
}

/// Whether there is a colour, and the colour.
const fn flag(color: Option<Color>) -> (u32, Color) {
    match color {
        None => (0, Color::TRANSPARENT),
        Some(color) => (1, color),
    }
}

impl From<Settings> for LegendSettings {
    fn from(settings: Settings) -> LegendSettings {
        settings.flat()
    }
}

impl From<LegendSettings> for Settings {
    fn from(flat: LegendSettings) -> Settings {
        Settings {
            nodata_color: flat.nodata_color,
            low_color: (flat.has_low == 1).then_some(flat.low_color),
            high_color: (flat.has_high == 1).then_some(flat.high_color),
            zero_is_nodata: flat.zero_is_nodata == 1,
        }
    }
}

//! A first use from Rust: colours, a ramp, legends of the three kinds, and refusals. `c/first.c` prints the same lines.

use legend::{Color, Lanes, Legend, Palette, Ramp, Refusal, Settings};

fn word(color: Color) -> String {
    format!("{:08x}", color.word())
}

/// What the example prints.
pub fn lines() -> Result<Vec<String>, Refusal> {
    // Two colours from text, spread over a ramp.
    let ends: [Color; 2] = ["#0000FF".parse()?, "#FF000080".parse()?];
    let ramp = Ramp::from_colors(&ends)?;
    let mut lines: Vec<String> = (0..=4).map(|i| word(ramp.color(i as f32 / 4.0))).collect();

    // The two rules of the look-up differ at one fraction, 65,793 / 2^25.
    let close = 65_793.0 / 33_554_432.0;
    lines.push(format!("{} {}", word(ramp.color(close)), word(ramp.lane_color(close))));

    // A palette's colours.
    lines.extend(Palette::Accent.colors().map(word));

    lines.extend(legend_lines(&ends)?);

    if let Err(refused) = Color::from_hex("#00FG00") {
        lines.push(format!("refused {} at {}", refused.number(), refused.index().unwrap_or(0)));
    }
    if let Err(refused) = Palette::from_number(32) {
        lines.push(format!("refused {}", refused.number()));
    }

    // A sample as a key.
    lines.push(format!("key {}", legend::key(-5.9).unwrap_or(0)));
    Ok(lines)
}

fn legend_lines(ends: &[Color; 2]) -> Result<Vec<String>, Refusal> {
    // A linear legend, from 0 to 30 over the palette YL_GN_BU, paints a raster in which -999 is nodata. Nodata, and
    // what is below and above the range, have colours of their own.
    let settings = Settings {
        nodata_color: "#00000080".parse()?,
        low_color: Some("#FFFFFF".parse()?),
        high_color: Some("#FF0000".parse()?),
        zero_is_nodata: false,
    };
    let blues = Ramp::from_palette(Palette::YlGnBu);
    let linear = Legend::linear(&blues, 0.0..=30.0, settings)?;
    let raster = [-999.0f32, -5.0, 0.0, 7.5, 15.0, 22.5, 30.0, 31.0];
    let mut out = [Color::TRANSPARENT; 8];
    linear.paint(&raster, Some(-999.0), &mut out)?;
    let mut lines: Vec<String> = out.map(word).to_vec();

    // Bands, painted four samples at once; the fifth is painted plainly.
    let banded = Legend::equal_bands(4, &blues, 0.0..=200.0, settings)?;
    let mut scratch = [Color::TRANSPARENT; 16];
    banded.paint_lanes(Lanes::Four, &[0u8, 49, 50, 201, 100], None, &mut out[..5], &mut scratch)?;
    lines.extend(out[..5].iter().copied().map(word));

    // Categories, the range of their keys, and the last of the colours from its lowest to its highest.
    let categories = Legend::categories_for_values(ends, &[7, -3], settings)?;
    lines.push(word(categories.color_for_value(-3i16, None)?));
    let range = categories.total_value_range()?;
    lines.push(format!("from {:.1} to {:.1}", range.start(), range.end()));
    lines.push(word(categories.color_list()?[255]));

    // A refusal has a number, and some an index. Where a painting is refused, its buffers are as they were.
    if let Err(refused) = linear.paint(&raster, None, &mut out[..7]) {
        lines.push(format!("refused {}", refused.number()));
    }
    Ok(lines)
}

fn main() -> Result<(), Refusal> {
    lines()?.iter().for_each(|line| println!("{line}"));
    Ok(())
}

//! What a legend holds is what it was made of.

use legend::ffi::{LegendBanded, LegendCategoric, LegendLinear};
use legend::{Band, Color, Kind, Legend, Palette, Parts, Ramp, Refusal, Settings};

const RED: Color = Color::rgb(255, 0, 0);
const BLUE: Color = Color::rgb(0, 0, 255);

fn settings() -> Settings {
    Settings { nodata_color: Color::rgb(1, 1, 1), low_color: Some(RED), high_color: None, zero_is_nodata: true }
}

#[test]
fn linear() -> Result<(), Refusal> {
    let ramp = Ramp::from_palette(Palette::Spectral);
    let legend = Legend::linear(&ramp, -1.0..=2.0, settings())?;
    assert_eq!((legend.kind(), legend.settings(), legend.ramp()), (Kind::Linear, settings(), Some(ramp)));
    assert_eq!((legend.bands().len(), legend.categories().len(), legend.table()), (0, 0, None));
    assert_eq!(legend.total_value_range()?, -1.0..=2.0);
    assert_eq!(Legend::linear(&[RED, BLUE], 0.0..=1.0, settings())?.ramp(), Some(Ramp::from_colors(&[RED, BLUE])?));
    Ok(())
}

#[test]
fn banded() -> Result<(), Refusal> {
    let legend = Legend::manual_ranges(&[RED, BLUE], &[0.0..1.0, 5.0..6.0], settings())?;
    let bands = [Band { start: 0.0, end: 1.0, color: RED }, Band { start: 5.0, end: 6.0, color: BLUE }];
    assert_eq!((legend.kind(), legend.settings(), legend.bands()), (Kind::Banded, settings(), &bands[..]));
    assert_eq!((legend.ramp(), legend.categories().len(), legend.table()), (None, 0, None));
    assert_eq!(legend, Legend::bands_as_given(&bands, settings())?);
    Ok(())
}

#[test]
fn categoric() -> Result<(), Refusal> {
    let legend = Legend::categories_for_range(&[RED, BLUE], 2..=3, settings())?;
    assert_eq!((legend.kind(), legend.settings()), (Kind::Categoric, settings()));
    assert!(legend.categories().eq([(2, RED), (3, BLUE)]));
    assert_eq!(legend.table(), Some(&[Color::TRANSPARENT, Color::TRANSPARENT, RED, BLUE][..]));
    assert_eq!((legend.ramp(), legend.bands().len()), (None, 0));
    assert_eq!(Legend::categories_for_range(&[RED], -1..=-1, settings())?.table(), None);
    Ok(())
}

/// Of a record whose counts are above its capacities, all that it can hold is shown.
#[test]
fn counts_above_capacity() {
    let banded = LegendBanded { count: usize::MAX, ..LegendBanded::EMPTY };
    let legend = Legend::from_parts(Parts::Banded(banded), settings());
    assert_eq!((legend.bands().len(), legend.kind()), (64, Kind::Banded));
    let categoric = LegendCategoric { count: 257, lookup_count: 514, ..LegendCategoric::EMPTY };
    let legend = Legend::from_parts(Parts::Categoric(categoric), settings());
    assert_eq!((legend.categories().len(), legend.table().map(<[Color]>::len)), (256, Some(513)));
    assert_eq!(legend.total_value_range(), Err(Refusal::CountAboveCapacity));
    let linear = Legend::from_parts(Parts::Linear(LegendLinear::EMPTY), settings());
    assert_eq!((linear.kind(), linear.settings()), (Kind::Linear, settings()));
}

//! Cards, written and read: how long one takes, and how that grows with its length. The reference has none.

use crate::clock::{clocked, median};
use legend::{Color, Legend, Ramp, Settings};
use std::hint::black_box;

/// One card: nanoseconds to write it, to read it, and to hand its title out.
pub struct Card {
    pub legend: String,
    pub bytes: usize,
    pub write: f64,
    pub read: f64,
    pub title: f64,
}

/// How many calls a measurement has.
const CALLS: usize = 2000;

fn time(name: &str, legend: &Legend, title: &[u8], rounds: usize) -> Card {
    let card = legend.to_card(title).expect("not refused");
    assert!(Legend::from_card(&card).as_ref() == Ok(legend) && Legend::title_of_card(&card) == title, "{name}");
    let mut buffer = [0; Legend::CARD_CAPACITY];
    let (mut write, mut read, mut titles) = (vec![], vec![], vec![]);
    for round in 0..=rounds {
        let written = clocked(CALLS, || {
            black_box(black_box(legend).write_card(black_box(title), &mut buffer)).expect("not refused");
        });
        let back = clocked(CALLS, || drop(black_box(Legend::from_card(black_box(&card)))));
        let handed = clocked(CALLS, || {
            black_box(Legend::title_of_card(black_box(&card)));
        });
        // The first round warms up.
        if round > 0 {
            write.push(written);
            read.push(back);
            titles.push(handed);
        }
    }
    Card { legend: name.into(), bytes: card.len(), write: median(write), read: median(read), title: median(titles) }
}

/// Each kind from its smallest to its largest, under a title of 255 bytes.
pub fn cards(rounds: usize) -> Vec<Card> {
    let title: Vec<u8> = (0..255).collect();
    let colors: Vec<Color> = (1..=256).map(|number: u32| Color::from_word(number.wrapping_mul(0x9e37_79b1))).collect();
    let ramp = Ramp::from_entries(std::array::from_fn(|entry| colors[entry]));
    let settings = Settings::default();
    let linear = Legend::linear(&ramp, 0.0..=100.0, settings);
    let mut all = vec![("linear".to_string(), linear)];
    for count in [0, 16, 32, 64] {
        all.push((format!("{count} bands"), Legend::equal_bands(count, &colors[..count], 0.0..=100.0, settings)));
    }
    for count in [0, 64, 128, 256] {
        let small: Vec<i64> = (0..count as i64).map(|key| 2 * key).collect();
        let wide: Vec<i64> = small.iter().map(|key| key - 100).collect();
        let of = |keys: &[i64]| Legend::categories_for_values(&colors[..count], keys, settings);
        all.push((format!("{count} keys, table"), of(&small)));
        all.push((format!("{count} keys, no table"), of(&wide)));
    }
    // No keys have no table.
    all.retain(|(name, _)| name != "0 keys, table");
    all.into_iter().map(|(name, legend)| time(&name, &legend.expect("a legend"), &title, rounds)).collect()
}

//! Cards, byte by byte: every change of one byte, every cut, every byte more, and buffers of every length around the card's.
//! Each answer is that of docs/RULES.md read a second time; what is accepted is the card of what is read.

use compare::cards;
use compare::engine::{Inputs, Subject, compare};
use compare::subjects::cards::{Reader, distinct, random_writings};
use legend::{Legend, Ramp, Refusal, Settings, ffi};
use std::sync::atomic::{AtomicUsize, Ordering};

/// A legend of each kind, under a short title and a long one.
fn all() -> Vec<(Legend, Vec<u8>)> {
    let colors = distinct(256);
    let settings = Settings { low_color: Some(colors[7]), zero_is_nodata: true, ..Settings::default() };
    let ramp = Ramp::from_entries(std::array::from_fn(|entry| colors[entry]));
    let linear = Legend::linear(&ramp, 1.0..=2.0, settings);
    let banded = Legend::manual_ranges(&colors[..3], &[f32::NEG_INFINITY..0.5, 0.5..1.0, 3.0..4.0], settings);
    let small = Legend::categories_for_values(&colors[..4], &[0, 1, 255, 512], settings);
    let wide = Legend::categories_for_values(&colors[..4], &[-16_777_216, -256, 3, 16_777_216], settings);
    let legends = [linear, banded, small, wide].map(|made| made.expect("not refused"));
    let titles = [b"r".to_vec(), (0..255).collect()];
    legends.into_iter().flat_map(|legend| titles.clone().map(|title| (legend.clone(), title))).collect()
}

fn cards() -> Vec<Vec<u8>> {
    all().iter().map(|(legend, title)| legend.to_card(title).expect("not refused")).collect()
}

/// How many of some bytes, given by number, are accepted: with no difference from the rules.
fn accepted(count: usize, at: impl Fn(usize) -> Vec<u8> + Sync) -> usize {
    let accepted = AtomicUsize::new(0);
    let counted = |number: u64| {
        let card = at(number as usize);
        accepted.fetch_add(Legend::from_card(&card).is_ok().into(), Ordering::Relaxed);
        card
    };
    if let Err(difference) = compare(&Reader, &Inputs::new(count as u64, counted), None) {
        panic!("{difference}");
    }
    accepted.into_inner()
}

/// The card itself among them, 256 times over.
#[test]
fn every_change_of_a_byte() {
    for card in cards() {
        let changed = |number: usize| {
            let mut other = card.clone();
            other[number / 256] = number as u8;
            other
        };
        let all = 256 * card.len();
        let accepted = accepted(all, changed);
        // A byte of a colour or of the title may be any; the mark, the version and the kind may not.
        assert!((card.len() + 255..all - 5 * 255).contains(&accepted), "{accepted} of {all}");
    }
}

#[test]
fn every_cut_and_every_byte_more() {
    for card in cards() {
        assert_eq!(accepted(card.len(), |length| card[..length].to_vec()), 0);
        assert_eq!(accepted(256, |byte| [&card[..], &[byte as u8]].concat()), 0);
        let refusal = |length: usize| Legend::from_card(&card[..length]).expect_err("cut off");
        assert!((0..6).all(|length| refusal(length) == Refusal::CardUnknown));
        assert!((6..card.len()).all(|length| refusal(length) == Refusal::CardMalformed));
    }
}

#[test]
fn every_length_of_a_buffer() {
    for (legend, title) in all() {
        let card = legend.to_card(&title).expect("not refused");
        for length in (0..9).chain(card.len() - 3..card.len() + 3) {
            let before: Vec<u8> = (0..length).map(|at| at as u8 ^ 0x5a).collect();
            let mut buffer = before.clone();
            let written = legend.write_card(&title, &mut buffer);
            if length < card.len() {
                assert_eq!((written, buffer), (Err(Refusal::CardTooLong), before));
            } else {
                assert_eq!(written, Ok(card.len()));
                assert_eq!((&buffer[..card.len()], &buffer[card.len()..]), (&card[..], &before[card.len()..]));
            }
        }
        let long = vec![b't'; 256];
        assert_eq!(legend.to_card(&long), Err(Refusal::CardTooLong));
        let capacity = legend.write_card(&long[..255], &mut [0; Legend::CARD_CAPACITY]);
        assert!(capacity.is_ok_and(|length| length <= Legend::CARD_CAPACITY));
    }
}

/// Random legends, as builders make them: what is read back is written as the same card, and holds the same.
#[test]
fn random_legends_there_and_back() {
    let inputs = random_writings(7, 20_000);
    let mut kinds = [0; 3];
    for number in 0..inputs.count {
        let (input, mut card) = ((inputs.at)(number), vec![0; Legend::CARD_CAPACITY]);
        let written = input.record();
        let made = ffi::write_card(&written, &input.title, &mut card);
        if made.answer.number != 0 {
            continue;
        }
        card.truncate(made.length);
        let back = ffi::read_card(&card);
        assert_eq!((back.answer.number, back.legend.kind), (0, written.kind));
        let same = match written.kind {
            0 => back.legend.linear.cmap == written.linear.cmap,
            1 => back.legend.banded.count == written.banded.count,
            _ => {
                let (one, other) = (&back.legend.categoric, &written.categoric);
                let (count, words) = (other.count, other.lookup_count);
                let counts = (one.count, one.lookup_count) == (count, words);
                counts
                    && (&one.keys[..count], &one.colors[..count]) == (&other.keys[..count], &other.colors[..count])
                    && one.lookup[..words] == other.lookup[..words]
            }
        };
        let mut again = vec![0; Legend::CARD_CAPACITY];
        let length = ffi::write_card(&back.legend, Legend::title_of_card(&card), &mut again).length;
        assert!(same && again[..length] == card, "{input:?}");
        kinds[written.kind as usize] += 1;
    }
    assert!(kinds.iter().all(|&count| count > 1000), "{kinds:?}");
}

/// A reader that lets one thing pass is seen: each of these is accepted by it and refused by the rules.
#[test]
fn the_rules_refuse_what_they_name() {
    let [linear, _, banded, _, small, ..] = &cards()[..] else { panic!("eight cards") };
    let with = |card: &[u8], at: usize, byte: u8| [&card[..at], &[byte], &card[at + 1..]].concat();
    let number = |card: Vec<u8>| {
        let refused = cards::read(&card).expect_err("refused").number;
        let mut words = vec![];
        Reader.ours(&card, &mut words);
        assert_eq!(words[0], u64::from(refused));
        refused
    };
    // The title has one byte, so nodata is at 8, the flags at 12, low at 13, high at 17, the count at 21, entries from 23.
    assert_eq!(number(with(linear, 2, b'D')), 18, "the mark");
    assert_eq!(number(with(linear, 3, 2)), 18, "the version");
    assert_eq!(number(with(linear, 5, 3)), 18, "the kind");
    assert_eq!(number(with(linear, 12, 13)), 19, "another flag");
    assert_eq!(number(with(linear, 12, 4)), 19, "an absent low colour that is not zero");
    assert_eq!(number(with(linear, 17, 1)), 19, "an absent high colour that is not zero");
    assert_eq!(number(with(linear, 22, 0)), 19, "a linear count of 0");
    assert_eq!(number(with(linear, 26, 0x41)), 7, "a start above the end");
    assert_eq!(number([&linear[..23], &[1, 0, 0xc0, 0x7f], &linear[27..]].concat()), 19, "another NaN");
    assert_eq!(number(with(banded, 21, 65)), 19, "a count above capacity");
    assert_eq!(number(with(small, 23, 1)), 19, "equal keys");
    assert_eq!(number([&small[..59], &[1, 0, 0, 1], &small[63..]].concat()), 19, "a key beyond the limit");
    // Not refused: a NaN bound of the right bits, a band that ends below its start.
    let nan = [&linear[..23], &[0, 0, 0xc0, 0x7f], &linear[27..]].concat();
    assert!(Legend::from_card(&nan).is_ok() && cards::read(&nan).is_ok());
    let turned = with(banded, 50, 0xc0);
    assert!(Legend::from_card(&turned).is_ok() && cards::read(&turned).is_ok());
}

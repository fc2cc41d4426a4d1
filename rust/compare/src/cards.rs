//! Cards, as docs/RULES.md says them, read a second time: a writer that appends its fields, and a reader that takes them
//! off the front. They share nothing with the library but the record.

use crate::rules::{Refused, form, refuse_if, stored};
use legend::Color;
use legend::ffi::{LegendBand, LegendRecord};

/// The bytes that every card starts with: the mark, and version 1.
const HEAD: [u8; 5] = [b'L', b'G', b'C', 1, 0];
/// The keys that builders take.
const LIMIT: i64 = 16_777_216;
/// A NaN on a card.
const NAN: u32 = 0x7fc0_0000;

type Answer<T> = Result<T, Refused>;

// ---- Writing

/// The table that keys give, none where they have none.
pub fn table(keys: &[i64], colors: &[Color]) -> Vec<Color> {
    let (Some(&least), Some(&most)) = (keys.iter().min(), keys.iter().max()) else { return vec![] };
    if least < 0 || most > 512 {
        return vec![];
    }
    let mut words = vec![Color::TRANSPARENT; most as usize + 1];
    keys.iter().zip(colors).for_each(|(&key, &color)| words[key as usize] = color);
    words
}

/// 16 of a categoric record besides its counts.
fn in_order(legend: &LegendRecord) -> bool {
    let categoric = &legend.categoric;
    let (keys, colors) = (&categoric.keys[..categoric.count], &categoric.colors[..categoric.count]);
    let ascend = keys.windows(2).all(|pair| pair[0] < pair[1]);
    let near = keys.iter().all(|key| (-LIMIT..=LIMIT).contains(key));
    ascend && near && categoric.lookup[..categoric.lookup_count] == table(keys, colors)[..]
}

fn bits(x: f32) -> [u8; 4] {
    if x.is_nan() { NAN.to_le_bytes() } else { x.to_bits().to_le_bytes() }
}

/// A colour where its flag is set, else zeros.
fn given(flag: u32, color: Color) -> [u8; 4] {
    if flag == 1 { color.word().to_le_bytes() } else { [0; 4] }
}

/// The card of a legend that nothing refuses.
fn bytes(legend: &LegendRecord, title: &[u8]) -> Vec<u8> {
    let settings = &legend.settings;
    let mut card = HEAD.to_vec();
    card.push(legend.kind as u8);
    card.push(title.len() as u8);
    card.extend(title);
    card.extend(settings.nodata_color.word().to_le_bytes());
    card.push((settings.has_low + 2 * settings.has_high + 4 * settings.zero_is_nodata) as u8);
    card.extend(given(settings.has_low, settings.low_color));
    card.extend(given(settings.has_high, settings.high_color));
    let count = [256, legend.banded.count, legend.categoric.count][legend.kind as usize];
    card.extend((count as u16).to_le_bytes());
    match legend.kind {
        0 => {
            card.extend([bits(legend.linear.start), bits(legend.linear.end)].concat());
            card.extend(legend.linear.cmap.iter().flat_map(|color| color.word().to_le_bytes()));
        }
        1 => {
            for band in &legend.banded.bands[..count] {
                card.extend([bits(band.start), bits(band.end), band.color.word().to_le_bytes()].concat());
            }
        }
        _ => {
            for (key, color) in legend.categoric.keys.iter().zip(&legend.categoric.colors).take(count) {
                card.extend(key.to_le_bytes());
                card.extend(color.word().to_le_bytes());
            }
        }
    }
    card
}

/// Writes a card into a buffer: its length.
pub fn write(legend: &LegendRecord, title: &[u8], buffer: &mut [u8]) -> Answer<usize> {
    form(legend)?;
    stored(legend)?;
    refuse_if(legend.kind == 2 && !in_order(legend), 16)?;
    refuse_if(legend.kind == 0 && legend.linear.start > legend.linear.end, 7)?;
    refuse_if(title.len() > 255, 20)?;
    let card = bytes(legend, title);
    refuse_if(buffer.len() < card.len(), 20)?;
    buffer[..card.len()].copy_from_slice(&card);
    Ok(card.len())
}

// ---- Reading

/// Bytes that are taken off the front, each time as many as asked for, or 19.
struct Rest<'a>(&'a [u8]);

impl<'a> Rest<'a> {
    fn bytes(&mut self, count: usize) -> Answer<&'a [u8]> {
        refuse_if(self.0.len() < count, 19)?;
        let (taken, rest) = self.0.split_at(count);
        self.0 = rest;
        Ok(taken)
    }

    fn byte(&mut self) -> Answer<u8> {
        Ok(self.bytes(1)?[0])
    }

    fn word(&mut self) -> Answer<u32> {
        Ok(u32::from_le_bytes(self.bytes(4)?.try_into().expect("four bytes")))
    }

    fn color(&mut self) -> Answer<Color> {
        self.word().map(Color::from_word)
    }

    /// A float: of the patterns of a NaN one alone.
    fn float(&mut self) -> Answer<f32> {
        let word = self.word()?;
        refuse_if(f32::from_bits(word).is_nan() && word != NAN, 19)?;
        Ok(f32::from_bits(word))
    }

    /// A colour that may be absent: then it is zero.
    fn given(&mut self, flag: u32) -> Answer<Color> {
        let color = self.color()?;
        refuse_if(flag == 0 && color.word() != 0, 19)?;
        Ok(color)
    }
}

/// Reads a card: the legend, as a builder makes it, and its title.
pub fn read(card: &[u8]) -> Answer<(LegendRecord, &[u8])> {
    refuse_if(card.len() < 6 || card[..5] != HEAD || card[5] > 2, 18)?;
    let mut rest = Rest(&card[6..]);
    let mut made = LegendRecord { kind: card[5].into(), ..LegendRecord::EMPTY };
    let length = rest.byte()?;
    let title = rest.bytes(length.into())?;
    made.settings.nodata_color = rest.color()?;
    let flags = u32::from(rest.byte()?);
    refuse_if(flags > 7, 19)?;
    (made.settings.has_low, made.settings.has_high, made.settings.zero_is_nodata) =
        (flags & 1, flags >> 1 & 1, flags >> 2);
    made.settings.low_color = rest.given(made.settings.has_low)?;
    made.settings.high_color = rest.given(made.settings.has_high)?;
    let count = usize::from(u16::from_le_bytes(rest.bytes(2)?.try_into().expect("two bytes")));
    match made.kind {
        0 => {
            refuse_if(count != 256, 19)?;
            (made.linear.start, made.linear.end) = (rest.float()?, rest.float()?);
            for place in &mut made.linear.cmap {
                *place = rest.color()?;
            }
        }
        1 => {
            refuse_if(count > 64, 19)?;
            for place in &mut made.banded.bands[..count] {
                *place = LegendBand { start: rest.float()?, end: rest.float()?, color: rest.color()? };
            }
            made.banded.count = count;
        }
        _ => {
            refuse_if(count > 256, 19)?;
            let mut before = None;
            for at in 0..count {
                let key = i64::from_le_bytes(rest.bytes(8)?.try_into().expect("eight bytes"));
                refuse_if(before.is_some_and(|before| key <= before) || !(-LIMIT..=LIMIT).contains(&key), 19)?;
                before = Some(key);
                (made.categoric.keys[at], made.categoric.colors[at]) = (key, rest.color()?);
            }
            made.categoric.count = count;
            let words = table(&made.categoric.keys[..count], &made.categoric.colors[..count]);
            made.categoric.lookup[..words.len()].copy_from_slice(&words);
            made.categoric.lookup_count = words.len();
        }
    }
    refuse_if(!rest.0.is_empty(), 19)?;
    refuse_if(made.kind == 0 && made.linear.start > made.linear.end, 7)?;
    Ok((made, title))
}

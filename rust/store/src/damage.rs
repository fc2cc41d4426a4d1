//! Rows with one word changed, one for each kind of part.

use crate::row::*;

/// For each: the kind of row, and the place of a word that is not 0 in it.
const CHANGED: [(Kind, usize); 22] = [
    (Kind::Palette, PLAIN),
    (Kind::Hex, ANSWER),
    (Kind::Hex, INDEX),
    (Kind::Hex, RANGE),
    (Kind::Lookup, COLOR_LIST + 255),
    (Kind::Lookup, LANES[2].1 + 15),
    (Kind::Truncated, PLAIN),
    (Kind::Linear, ANSWER),
    (Kind::Linear, RANGE + 1),
    (Kind::Linear, ARRAYS + 255),
    (Kind::EqualBands, RECORD + 7),
    (Kind::ManualRanges, INDEX),
    (Kind::ManualRanges, VALUES + 39),
    (Kind::Bands, ARRAYS + 128),
    (Kind::Bands, PLAIN + 39),
    (Kind::Categories, RECORD + 2),
    (Kind::Categories, ARRAYS + 256),
    (Kind::CategoryRange, LANES[0].1 + 39),
    (Kind::CategoryRange, COLOR_LIST + 255),
    (Kind::LinearStored, LANES[2].1 + 31),
    (Kind::LinearStored, LANES[1].2 + 7),
    (Kind::CategoriesStored, ARRAYS + 512),
];

/// A row as it is, and then the changed ones.
pub fn rows(rows: &[Row]) -> Vec<Row> {
    let changed = CHANGED.iter().map(|&(kind, place)| {
        let mut row =
            rows.iter().find(|row| row.0[0] == kind as u32 && row.0[place] != 0).expect("some row has it").clone();
        row.0[place] ^= 1;
        row
    });
    rows[..1].iter().cloned().chain(changed).collect()
}

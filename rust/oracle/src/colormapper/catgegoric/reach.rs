//! What is private in catgegoric.rs.

use super::*;
use crate::Record;

pub fn stored(categories: &[(i64, u32)], fast_lookup: Option<Vec<u32>>) -> CategoricNumeric {
    let category =
        |&(key, color): &(i64, u32)| (key, LegendCategory { color: Color::from(color), name: String::new() });
    CategoricNumeric { categories: categories.iter().map(category).collect(), fast_lookup }
}

pub fn record(mapper: &CategoricNumeric) -> Record {
    let mut categories: Vec<_> = mapper.categories.iter().map(|(&key, of)| (key, of.color.to_bits())).collect();
    categories.sort_unstable();
    Record::Categoric { categories, table: mapper.fast_lookup.clone() }
}

use crate::ffi::LegendAnswer;
use std::fmt;

/// Why a call says no. Where several reasons apply, the first in the order of the call's checks is given.
#[derive(Debug, Clone, Copy, PartialEq, Eq, Hash)]
#[non_exhaustive]
pub enum Refusal {
    /// The text of a colour is empty.
    EmptyText,
    /// The text of a colour does not start with `#`, or has neither 7 nor 9 bytes.
    NotHexColor,
    /// A pair of digits is no hex byte.
    NotHexByte {
        /// The first such pair, counted from 0.
        pair: usize,
    },
    /// A ramp is asked for from fewer than 2 colours.
    TooFewColors,
    /// A ramp is asked for from more than 256 colours.
    TooManyColors,
    /// A palette's number is above 31.
    NoSuchPalette,
    /// A range starts above its end.
    StartAboveEnd,
    /// More than 64 bands.
    TooManyBands,
    /// A list has not as many colours as there are bands or categories.
    ColorCountDiffers,
    /// A range starts at its end or above it.
    EmptyRange {
        /// The first such range, counted from 0.
        range: usize,
    },
    /// More than 256 categories.
    TooManyCategories,
    /// A range of keys whose end - start, or that and 1, is no `i64`.
    RangeTooWide,
    /// An output has not as many places as the raster has samples.
    OutputLengthDiffers,
    /// A lane count is not 4, 8 or 16.
    NoSuchLaneCount,
    /// The scratch has fewer than 16 words.
    ScratchTooShort,
    /// A record's own count is above what the record can hold; for a card also keys that do not ascend or pass the limit,
    /// and a table that is not what the keys give.
    CountAboveCapacity,
    /// A key lies outside -16,777,216 to 16,777,216.
    KeyOutOfRange {
        /// The first such key, counted from 0.
        key: usize,
    },
    /// Bytes are no card: the mark, the version or the kind is wrong or cut off.
    CardUnknown,
    /// The rest of a card breaks the layout.
    CardMalformed,
    /// A card's title is above 255 bytes, or the buffer is too short for the card.
    CardTooLong,
}

impl Refusal {
    /// The refusal's number in the table, 1 to 20.
    ///
    /// ```
    /// assert_eq!(legend::Refusal::NotHexByte { pair: 2 }.number(), 3);
    /// ```
    pub fn number(self) -> u32 {
        match self {
            Refusal::EmptyText => 1,
            Refusal::NotHexColor => 2,
            Refusal::NotHexByte { .. } => 3,
            Refusal::TooFewColors => 4,
            Refusal::TooManyColors => 5,
            Refusal::NoSuchPalette => 6,
            Refusal::StartAboveEnd => 7,
            Refusal::TooManyBands => 8,
            Refusal::ColorCountDiffers => 9,
            Refusal::EmptyRange { .. } => 10,
            Refusal::TooManyCategories => 11,
            Refusal::RangeTooWide => 12,
            Refusal::OutputLengthDiffers => 13,
            Refusal::NoSuchLaneCount => 14,
            Refusal::ScratchTooShort => 15,
            Refusal::CountAboveCapacity => 16,
            Refusal::KeyOutOfRange { .. } => 17,
            Refusal::CardUnknown => 18,
            Refusal::CardMalformed => 19,
            Refusal::CardTooLong => 20,
        }
    }

    /// The index of the part that was refused, where the table names one.
    ///
    /// ```
    /// assert_eq!(legend::Refusal::NotHexByte { pair: 2 }.index(), Some(2));
    /// assert_eq!(legend::Refusal::EmptyText.index(), None);
    /// ```
    pub fn index(self) -> Option<usize> {
        match self {
            Refusal::NotHexByte { pair: index }
            | Refusal::EmptyRange { range: index }
            | Refusal::KeyOutOfRange { key: index } => Some(index),
            _ => None,
        }
    }

    /// The result beside an answer of the library: `made`, or the refusal.
    pub(crate) fn unless<T>(answer: LegendAnswer, made: T) -> Result<T, Refusal> {
        Err(match answer.number {
            0 => return Ok(made),
            1 => Refusal::EmptyText,
            2 => Refusal::NotHexColor,
            3 => Refusal::NotHexByte { pair: answer.index },
            4 => Refusal::TooFewColors,
            5 => Refusal::TooManyColors,
            6 => Refusal::NoSuchPalette,
            7 => Refusal::StartAboveEnd,
            8 => Refusal::TooManyBands,
            9 => Refusal::ColorCountDiffers,
            10 => Refusal::EmptyRange { range: answer.index },
            11 => Refusal::TooManyCategories,
            12 => Refusal::RangeTooWide,
            13 => Refusal::OutputLengthDiffers,
            14 => Refusal::NoSuchLaneCount,
            15 => Refusal::ScratchTooShort,
            16 => Refusal::CountAboveCapacity,
            17 => Refusal::KeyOutOfRange { key: answer.index },
            18 => Refusal::CardUnknown,
            19 => Refusal::CardMalformed,
            20 => Refusal::CardTooLong,
            number => unreachable!("the library's contracts give no refusal {number}"),
        })
    }
}

impl fmt::Display for Refusal {
    fn fmt(&self, f: &mut fmt::Formatter<'_>) -> fmt::Result {
        match self {
            Refusal::EmptyText => write!(f, "the text of a colour is empty"),
            Refusal::NotHexColor => write!(f, "a colour is written #RRGGBB or #RRGGBBAA"),
            Refusal::NotHexByte { pair } => write!(f, "pair {pair} of a colour's text is no hex byte"),
            Refusal::TooFewColors => write!(f, "a ramp takes 2 colours or more"),
            Refusal::TooManyColors => write!(f, "a ramp takes 256 colours or fewer"),
            Refusal::NoSuchPalette => write!(f, "palettes are numbered 0 to 31"),
            Refusal::StartAboveEnd => write!(f, "the range starts above its end"),
            Refusal::TooManyBands => write!(f, "a legend has 64 bands or fewer"),
            Refusal::ColorCountDiffers => write!(f, "the list's length is not the count of bands or categories"),
            Refusal::EmptyRange { range } => write!(f, "range {range} starts at its end or above it"),
            Refusal::TooManyCategories => write!(f, "a legend has 256 categories or fewer"),
            Refusal::RangeTooWide => write!(f, "the range's length is no i64"),
            Refusal::OutputLengthDiffers => write!(f, "the output's length is not the raster's"),
            Refusal::NoSuchLaneCount => write!(f, "a lane count is 4, 8 or 16"),
            Refusal::ScratchTooShort => write!(f, "the scratch has 16 words or more"),
            Refusal::CountAboveCapacity => write!(f, "a record's count is above its capacity"),
            Refusal::KeyOutOfRange { key } => write!(f, "key {key} lies outside -16,777,216 to 16,777,216"),
            Refusal::CardUnknown => write!(f, "the card's mark, version or kind is not known"),
            Refusal::CardMalformed => write!(f, "the card breaks the layout"),
            Refusal::CardTooLong => write!(f, "the card's title is above 255 bytes, or the buffer is too short"),
        }
    }
}

impl std::error::Error for Refusal {}

#[cfg(test)]
mod tests {
    use super::*;

    #[test]
    fn each_answer_is_its_refusal() {
        assert_eq!(Refusal::unless(LegendAnswer { number: 0, indexed: 0, index: 0 }, 5), Ok(5));
        for number in 1..=20 {
            let indexed = [3, 10, 17].contains(&number);
            let index = if indexed { 7 } else { 0 };
            let why = Refusal::unless(LegendAnswer { number, indexed: indexed.into(), index }, ()).unwrap_err();
            assert_eq!((why.number(), why.index()), (number, indexed.then_some(7)));
            assert!(!why.to_string().is_empty());
        }
    }
}

//! A row of the file: words, and where each part stands.

/// The number of words of a row.
pub const WORDS: usize = 1680;

/// How many words the lists of a row have, and how many samples there are at most.
pub const LIST: usize = 16;
pub const SAMPLES_MOST: usize = 40;

/// The kinds of rows, by the number in a row's first word.
#[derive(Clone, Copy)]
pub enum Kind {
    Palette,
    Hex,
    Lookup,
    Truncated,
    Linear,
    EqualBands,
    ManualRanges,
    Bands,
    Categories,
    CategoryRange,
    LinearStored,
    CategoriesStored,
}

// What a row asks.
pub const SOURCE: usize = 1;
pub const LIST_COUNT: usize = 2;
pub const NODATA_COLOR: usize = 3;
pub const FLAGS: usize = 4;
pub const LOW: usize = 5;
pub const HIGH: usize = 6;
pub const NODATA: usize = 7;
pub const SAMPLE_TYPE: usize = 8;
pub const SAMPLE_COUNT: usize = 9;
pub const COUNT: usize = 10;
pub const TABLE_COUNT: usize = 11;
pub const COLORS: usize = 16;
pub const NUMBERS: usize = 32;
pub const TABLE: usize = 64;
pub const SAMPLES: usize = 80;

// The answers.
pub const ANSWER: usize = 128;
pub const INDEX: usize = 129;
pub const RANGE: usize = 130;
pub const RECORD: usize = 132;
pub const VALUES: usize = 144;
pub const PLAIN: usize = 184;
/// The lane counts, each with the place of its painting and of scratch.
pub const LANES: [(usize, usize, usize); 3] = [(4, 224, 344), (8, 264, 360), (16, 304, 376)];
pub const COLOR_LIST: usize = 392;
pub const ARRAYS: usize = 648;

/// What each word of scratch holds before a painting.
pub const MARK: u32 = 0x5c5c_5c5c;

#[derive(Clone)]
pub struct Row(pub [u32; WORDS]);

impl Row {
    pub fn new(kind: Kind) -> Row {
        let mut row = Row([0; WORDS]);
        row.0[0] = kind as u32;
        row
    }

    pub fn set(&mut self, place: usize, word: u32) {
        self.0[place] = word;
    }

    pub fn set_all(&mut self, place: usize, words: impl IntoIterator<Item = u32>) {
        for (i, word) in words.into_iter().enumerate() {
            self.0[place + i] = word;
        }
    }
}

impl Row {
    /// How many words are stored, and they: those after the last that is not 0 are left out.
    pub fn stored(&self) -> Vec<u32> {
        let count = self.0.iter().rposition(|&word| word != 0).map_or(0, |last| last + 1);
        [&[count as u32], &self.0[..count]].concat()
    }
}

/// A float's bits; of every NaN the same.
pub fn bits(x: f32) -> u32 {
    if x.is_nan() { 0x7fc0_0000 } else { x.to_bits() }
}

/// A key as a word, in two's complement.
pub fn key(x: i64) -> u32 {
    i32::try_from(x).expect("a key that the library takes") as u32
}

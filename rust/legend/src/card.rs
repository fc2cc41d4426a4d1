use crate::ffi;
use crate::{Legend, Refusal};

/// Cards: a legend as one file, under a title of 0 to 255 bytes. `docs/CARD.md` has the layout.
///
/// ```
/// use legend::{Color, Legend, Refusal, Settings};
///
/// let [dry, wet] = [Color::rgb(250, 250, 210), Color::rgb(0, 0, 139)];
/// let legend = Legend::equal_bands(2, &[dry, wet], 0.0..=10.0, Settings::default())?;
/// let card = legend.to_card(b"rain")?;
/// assert_eq!(Legend::title_of_card(&card), b"rain");
/// assert_eq!(Legend::from_card(&card)?, legend);
/// assert_eq!(Legend::from_card(&card[..5]), Err(Refusal::CardUnknown));
/// # Ok::<(), Refusal>(())
/// ```
impl Legend {
    /// A buffer of this length has room for every card.
    pub const CARD_CAPACITY: usize = 3349;

    /// Writes the legend's card into the first bytes of a buffer, and gives its length. The buffer's other bytes are as
    /// they were, and so are all where it is refused.
    ///
    /// Refused: a record with a count above what it can hold, with keys that do not ascend or pass -16,777,216 to
    /// 16,777,216, or with a table that is not what its keys give; then a start above the end; then a title above 255
    /// bytes, or a buffer that is too short. No builder makes a legend that the first two refuse.
    ///
    /// ```
    /// use legend::{Legend, Palette, Ramp, Refusal, Settings};
    /// let legend = Legend::linear(&Ramp::from_palette(Palette::Blues), 0.0..=9.0, Settings::default())?;
    /// let mut buffer = [0; Legend::CARD_CAPACITY];
    /// let length = legend.write_card(b"", &mut buffer)?;
    /// assert_eq!((length, &buffer[..3]), (1054, &b"LGC"[..]));
    /// assert_eq!(legend.write_card(b"", &mut buffer[..1053]), Err(Refusal::CardTooLong));
    /// # Ok::<(), Refusal>(())
    /// ```
    pub fn write_card(&self, title: &[u8], buffer: &mut [u8]) -> Result<usize, Refusal> {
        let written = ffi::write_card(self.record(), title, buffer);
        Refusal::unless(written.answer, written.length)
    }

    /// The legend's card. Refused as [`Legend::write_card`] is, but for the buffer.
    pub fn to_card(&self, title: &[u8]) -> Result<Vec<u8>, Refusal> {
        let mut buffer = [0; Legend::CARD_CAPACITY];
        let length = self.write_card(title, &mut buffer)?;
        Ok(buffer[..length].to_vec())
    }

    /// The legend on a card, as a builder makes it. Accepted are the cards that [`Legend::write_card`] writes, and no other
    /// bytes.
    ///
    /// Refused: a mark, version or kind that is wrong or cut off, then whatever else breaks the layout, then a start above
    /// the end.
    pub fn from_card(card: &[u8]) -> Result<Legend, Refusal> {
        Legend::unless(ffi::read_card(card))
    }

    /// The title on a card: that part of its own bytes, empty where the card is refused.
    ///
    /// ```
    /// use legend::Legend;
    /// assert_eq!(Legend::title_of_card(b"LGC"), b"");
    /// ```
    pub fn title_of_card(card: &[u8]) -> &[u8] {
        let part = ffi::card_title_part(card);
        &card[part.offset..part.offset + part.length]
    }
}

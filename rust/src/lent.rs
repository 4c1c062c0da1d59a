//! What a caller lends for a reading, and how much of it suffices.

use crate::{ELEMENT_WORDS, MAX_LEN, RECORD_WORDS, SHEET_LINE};
#[cfg(feature = "alloc")]
use alloc::{vec, vec::Vec};

/// Records and text that a call writes a reading into: words, [`RECORD_WORDS`] for each record, and
/// bytes.
///
/// ```
/// use qs::{Lent, Ticket};
/// const ROOM: (usize, usize) = qs::room(64);
/// let (mut records, mut text) = ([0; ROOM.0], [0; ROOM.1]);
/// let mut lent = Lent { records: &mut records, text: &mut text };
/// assert_eq!(Ticket::new("a=1").text("a", &mut lent), Ok("1"));
/// assert_eq!(Ticket::new("b=2").text("b", lent), Ok("2"));
/// ```
#[derive(Debug)]
pub struct Lent<'a> {
    /// Words for the records; what is left of them past the last whole record stays unused.
    pub records: &'a mut [u32],
    /// Bytes for the texts of keys and strings.
    pub text: &'a mut [u8],
}

/// Lends the same again, for one more call.
impl<'a> From<&'a mut Lent<'_>> for Lent<'a> {
    fn from(lent: &'a mut Lent<'_>) -> Self {
        let Lent { records, text } = lent;
        Lent { records, text }
    }
}

/// Records and text of one's own, to lend to one call after another.
///
/// ```
/// use qs::{Buffers, Ticket};
/// let mut buffers = Buffers::for_len(64);
/// assert_eq!(Ticket::new("a=1").text("a", &mut buffers), Ok("1"));
/// assert_eq!(Ticket::new("b=2").text("b", &mut buffers), Ok("2"));
/// ```
#[cfg(feature = "alloc")]
#[derive(Clone, Debug)]
pub struct Buffers {
    records: Vec<u32>,
    text: Vec<u8>,
}

#[cfg(feature = "alloc")]
impl Buffers {
    /// They suffice for every ticket of at most so many bytes: they have the [`room`] for it.
    pub fn for_len(length: usize) -> Self {
        let (words, bytes) = room(length);
        Buffers {
            records: vec![0; words],
            text: vec![0; bytes],
        }
    }

    /// Lends them. Calls that take `impl Into<Lent>` take `&mut buffers` as well.
    ///
    /// ```
    /// let mut buffers = qs::Buffers::for_len(3);
    /// let lent = buffers.lend();
    /// assert_eq!((lent.records.len(), lent.text.len()), qs::room(3));
    /// ```
    pub fn lend(&mut self) -> Lent<'_> {
        Lent {
            records: &mut self.records,
            text: &mut self.text,
        }
    }
}

#[cfg(feature = "alloc")]
impl<'a> From<&'a mut Buffers> for Lent<'a> {
    fn from(buffers: &'a mut Buffers) -> Self {
        buffers.lend()
    }
}

/// A longer ticket is refused, whatever is lent for it.
const fn readable(length: usize) -> usize {
    if length < MAX_LEN {
        length
    } else {
        MAX_LEN
    }
}

/// The words of records and the bytes of text that suffice for every ticket of at most so many
/// bytes: a record for each and one more, and a byte of text for each.
///
/// ```
/// assert_eq!(qs::room(3), (4 * qs::RECORD_WORDS, 3));
/// ```
pub const fn room(length: usize) -> (usize, usize) {
    let length = readable(length);
    (RECORD_WORDS * (length + 1), length)
}

/// The words that suffice for a list of every ticket of at most so many bytes: each element has a
/// byte of its own.
///
/// ```
/// assert_eq!(qs::list_room(3), 3 * qs::ELEMENT_WORDS);
/// ```
pub const fn list_room(length: usize) -> usize {
    ELEMENT_WORDS * readable(length)
}

/// The bytes of a page that suffice for the sheet of every ticket of at most so many bytes: a line
/// for each record that [`room`] has.
///
/// ```
/// assert_eq!(qs::sheet_room(3), 4 * qs::SHEET_LINE);
/// ```
pub const fn sheet_room(length: usize) -> usize {
    SHEET_LINE * (readable(length) + 1)
}

/// The bytes of output that suffice for whatever can be written of a ticket of at most so many
/// bytes: two more than three for each, and never more than [`MAX_LEN`].
///
/// ```
/// assert_eq!(qs::write_room(3), 11);
/// assert_eq!(qs::write_room(40_000), qs::MAX_LEN);
/// ```
pub const fn write_room(length: usize) -> usize {
    if length < MAX_LEN / 3 {
        3 * length + 2
    } else {
        MAX_LEN
    }
}

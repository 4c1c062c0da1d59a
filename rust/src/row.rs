//! The layout of a record: in which of its [`RECORD_WORDS`] words a thing stands, and which numbers
//! stand for kinds (READING, 'Records').
//!
//! It is for who reads the words himself; [`Tree`](crate::Tree) does that for everyone else. The
//! names are those of the proved crate `row`, and the comment in include/qs.h has the same numbers
//! for C.

use crate::RECORD_WORDS;

/// The word of the value's kind.
pub const KIND: usize = 0;

/// The word of the key's kind.
pub const KEY_KIND: usize = 1;

/// The word of an Int key's value, or of a String key's offset in the text.
pub const KEY: usize = 2;

/// The word of a String key's length; 0 for other keys.
pub const KEY_LEN: usize = 3;

/// The word of a String's offset in the text.
pub const TEXT: usize = 4;

/// The word of a String's length.
pub const TEXT_LEN: usize = 5;

/// The word of the first child's record; 0 for none.
pub const CHILD: usize = 6;

/// The word of the next sibling's record; 0 for none.
pub const NEXT: usize = 7;

/// The kind of a value that is still open.
pub const UNINITIALIZED: u32 = 0;

/// The kind of a map; its children have keys.
pub const MAP: u32 = 1;

/// The kind of a sequence; its children have none.
pub const SEQUENCE: u32 = 2;

/// The kind of a string; its bytes stand in the text.
pub const STRING: u32 = 3;

/// The kind of an empty value, as in `a=`.
pub const NULL: u32 = 4;

/// The kind of a value that isn't there, as in `a`.
pub const NO_VALUE: u32 = 5;

/// The key's kind where there is no key.
pub const NO_KEY: u32 = 0;

/// The kind of a key that is a number.
pub const INT_KEY: u32 = 1;

/// The kind of a key whose bytes stand in the text.
pub const STRING_KEY: u32 = 2;

/// The words of record `number`, if the words have that record; record 0 is the root.
///
/// ```
/// use qs::{raw, row, Buffers, Ticket};
/// let mut buffers = Buffers::for_len(3);
/// raw::parse(Ticket::new("a=1"), buffers.lend());
/// let lent = buffers.lend();
/// let root = row::record(lent.records, 0).unwrap();
/// assert_eq!(root[row::KIND], row::MAP);
/// let child = row::record(lent.records, root[row::CHILD]).unwrap();
/// assert_eq!((child[row::KIND], child[row::KEY_KIND]), (row::STRING, row::STRING_KEY));
/// assert_eq!(row::part(lent.text, child[row::TEXT], child[row::TEXT_LEN]), Some(&b"1"[..]));
/// assert_eq!(row::record(lent.records, 4), None);
/// ```
pub fn record(words: &[u32], number: u32) -> Option<&[u32; RECORD_WORDS]> {
    let record = words.chunks_exact(RECORD_WORDS).nth(number as usize)?;
    record.try_into().ok()
}

/// The bytes at an offset of the text, as words of a record give them, if the text has them.
///
/// ```
/// assert_eq!(qs::row::part(b"a1", 1, 1), Some(&b"1"[..]));
/// assert_eq!(qs::row::part(b"a1", 1, 2), None);
/// ```
pub fn part(text: &[u8], offset: u32, length: u32) -> Option<&[u8]> {
    text.get(offset as usize..)?.get(..length as usize)
}

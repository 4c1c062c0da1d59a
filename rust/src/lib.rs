//! A reader of bracketed query strings, such as `plate[0][page]=4&caption=Fog+at+dawn`, over the
//! library `qs`, whose functions are proved to meet their contracts.
//!
//! ```
//! use qs::{Buffers, Ticket};
//! let ticket = Ticket::new("plate[0][page]=4&caption=Fog+at+dawn");
//! let mut buffers = Buffers::for_len(ticket.input.len());
//! assert_eq!(ticket.text("caption", &mut buffers)?, "Fog at dawn");
//! let reading = ticket.parse(&mut buffers)?;
//! let page = reading.tree().get("plate").and_then(|plate| plate.get(0)?.get("page"));
//! assert_eq!(page.and_then(|page| page.text_str()), Some("4"));
//! let refused = Ticket::new("plate[0").parse(&mut buffers).unwrap_err();
//! assert_eq!(refused.to_string(), "the ticket ends before the closing bracket, at byte 8");
//! # Ok::<(), qs::Refused>(())
//! ```
//!
//! There are two layers:
//! - A [`Ticket`] is a query string and how it is read. Its calls answer a `Result` with what was
//!   read, or with a [`Refused`]: why, and where.
//! - [`raw`] has each export once, with the answers as C gets them. The proofs don't reach past the
//!   C boundary: the tests hold this layer against a model, word for word, and the other layer
//!   against this one.
//!
//! Every call ends on every input, and none allocates: records and text are the caller's, as
//! [`Lent`] has them. With the feature `alloc`, which is on by default, [`Buffers`] and
//! [`NamesBuf`] are such of one's own; without it the crate needs nothing but `core`.

#![no_std]
#![deny(missing_docs)]

#[cfg(feature = "alloc")]
extern crate alloc;

mod answers;
mod c;
mod draw;
mod lent;
mod names;
pub mod raw;
pub mod refusal;
pub mod row;
mod ticket;
mod tree;

pub use answers::{Fields, Reading, Texts};
pub use draw::{Quoted, MAX_LEVEL};
#[cfg(feature = "alloc")]
pub use lent::Buffers;
pub use lent::{list_room, room, sheet_room, write_room, Lent};
pub use names::Names;
#[cfg(feature = "alloc")]
pub use names::NamesBuf;
pub use refusal::{Refusal, Refused};
pub use ticket::Ticket;
pub use tree::{Elements, Entries, Key, Kind, Tree};

/// The words of a record.
pub const RECORD_WORDS: usize = 8;

/// The most that brackets may nest; a greater depth is refused.
pub const MAX_DEPTH: u32 = 64;

/// The most bytes of a ticket; a longer one is refused.
pub const MAX_LEN: usize = 65_535;

/// The words of a list's element: offset and length.
pub const ELEMENT_WORDS: usize = 2;

/// The words of a name's answer: number, offset and length.
pub const ANSWER_WORDS: usize = 3;

/// The bytes of a sheet's line: 72 characters and a newline.
pub const SHEET_LINE: usize = 73;

/// How a ticket is read (READING, 'Settings').
///
/// ```
/// use qs::Config;
/// let usual = Config::default();
/// assert_eq!((usual.depth, usual.form, usual.zeros), (5, false, false));
/// let form = Config { form: true, ..usual };
/// assert_ne!(form, usual);
/// ```
#[derive(Clone, Copy, Debug, PartialEq, Eq, Hash)]
pub struct Config {
    /// How deep brackets nest, at most [`MAX_DEPTH`].
    pub depth: u32,
    /// Whether `%5B` and `%5D` are taken as brackets.
    pub form: bool,
    /// Whether zeros in front of a number count: `07` is a string key then, another than `7`; `0`
    /// alone stays a number.
    pub zeros: bool,
}

impl Config {
    /// The default settings: depth 5, and neither of the others.
    ///
    /// ```
    /// const USUAL: qs::Config = qs::Config::new();
    /// assert_eq!(USUAL, qs::Config::default());
    /// ```
    pub const fn new() -> Self {
        Config {
            depth: 5,
            form: false,
            zeros: false,
        }
    }
}

impl Default for Config {
    fn default() -> Self {
        Config::new()
    }
}

/// What a field read does where several values were given for one text.
#[derive(Clone, Copy, Debug, Default, PartialEq, Eq, Hash)]
pub enum DuplicateKeyBehavior {
    /// The last one counts.
    #[default]
    TakeLast,
    /// The read is refused, by [`Refusal::SeveralValues`].
    Error,
}

impl DuplicateKeyBehavior {
    /// The flag that C gets.
    fn flag(self) -> u32 {
        match self {
            DuplicateKeyBehavior::TakeLast => 0,
            DuplicateKeyBehavior::Error => 1,
        }
    }
}

/// Decodes a raw segment into `out`: `+` becomes a space, `%` with two hex digits that byte.
///
/// Gives the decoded length, at most `raw.len()`; the bytes of `out` past it are untouched. Where
/// the decoded bytes don't fit it gives `None`, and `out` is unchanged.
///
/// A `%` that starts no escape stays, and swallows the next byte if that isn't a hex digit, or the
/// next two if only the first is: `%%41` decodes to itself, and not to `%A` as in the URL Standard
/// (READING, 'Decoding').
///
/// ```
/// let mut out = [0; 8];
/// assert_eq!(qs::decode(b"a+%C3%A9", &mut out), Some(4));
/// assert_eq!(&out[..4], "a é".as_bytes());
/// assert_eq!(qs::decode(b"abc", &mut out[..2]), None);
/// ```
pub fn decode(raw: &[u8], out: &mut [u8]) -> Option<usize> {
    // SAFETY: both slices live through the call, and `out` is lent to it alone.
    let answer = unsafe { c::qs_decode(raw.as_ptr(), raw.len(), out.as_mut_ptr(), out.len()) };
    match answer {
        -1 => None,
        length => Some(usize::try_from(length).expect("qs_decode answers -1 or a length")),
    }
}

/// Whether the bytes are well-formed UTF-8 (RFC 3629). It changes nothing.
///
/// ```
/// assert!(qs::is_utf8("é".as_bytes()));
/// assert!(!qs::is_utf8(b"\xC3"));
/// ```
pub fn is_utf8(bytes: &[u8]) -> bool {
    // SAFETY: the slice lives through the call, which only reads it.
    match unsafe { c::qs_utf8(bytes.as_ptr(), bytes.len()) } {
        1 => true,
        0 => false,
        other => unreachable!("qs_utf8 answers 1 or 0, and not {other}"),
    }
}

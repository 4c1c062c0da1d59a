//! A view of the tree that records and text hold.

use crate::{row, Quoted, RECORD_WORDS};
use core::fmt;
use core::iter::FusedIterator;

/// What a value is.
#[derive(Clone, Copy, Debug, PartialEq, Eq, Hash)]
pub enum Kind {
    /// Still open: the root of a ticket of `&` alone.
    Uninitialized,
    /// A map, which has a value under each key.
    Map,
    /// A sequence of values without keys.
    Sequence,
    /// A string of bytes.
    String,
    /// An empty value, as in `a=`.
    Null,
    /// A value that isn't there, as in `a`.
    NoValue,
}

impl Kind {
    /// The kind of a record's number. A number that no reading leaves is taken as a value that is
    /// still open: it has neither text nor children.
    const fn of(number: u32) -> Self {
        match number {
            row::MAP => Kind::Map,
            row::SEQUENCE => Kind::Sequence,
            row::STRING => Kind::String,
            row::NULL => Kind::Null,
            row::NO_VALUE => Kind::NoValue,
            _ => Kind::Uninitialized,
        }
    }
}

impl fmt::Display for Kind {
    fn fmt(&self, f: &mut fmt::Formatter) -> fmt::Result {
        f.pad(match self {
            Kind::Uninitialized => "uninitialized",
            Kind::Map => "map",
            Kind::Sequence => "sequence",
            Kind::String => "string",
            Kind::Null => "null",
            Kind::NoValue => "no value",
        })
    }
}

/// A key of a map. Numbers stand before strings, as in a map.
///
/// A number is another key than a string of its digits: `1` is a number, and `%31` a string
/// (READING, 'Keys').
#[derive(Clone, Copy, PartialEq, Eq, PartialOrd, Ord, Hash)]
pub enum Key<'a> {
    /// A number.
    Int(u32),
    /// A string of bytes.
    String(&'a [u8]),
}

impl From<u32> for Key<'_> {
    fn from(number: u32) -> Self {
        Key::Int(number)
    }
}

impl<'a> From<&'a str> for Key<'a> {
    fn from(text: &'a str) -> Self {
        Key::String(text.as_bytes())
    }
}

impl<'a> From<&'a [u8]> for Key<'a> {
    fn from(bytes: &'a [u8]) -> Self {
        Key::String(bytes)
    }
}

impl<'a, const N: usize> From<&'a [u8; N]> for Key<'a> {
    fn from(bytes: &'a [u8; N]) -> Self {
        Key::String(bytes)
    }
}

/// A number as it is, and a string in quotes.
impl fmt::Display for Key<'_> {
    fn fmt(&self, f: &mut fmt::Formatter) -> fmt::Result {
        match *self {
            Key::Int(number) => write!(f, "{number}"),
            Key::String(bytes) => write!(f, "{}", Quoted(bytes)),
        }
    }
}

impl fmt::Debug for Key<'_> {
    fn fmt(&self, f: &mut fmt::Formatter) -> fmt::Result {
        let kind = match self {
            Key::Int(_) => "Int",
            Key::String(_) => "String",
        };
        write!(f, "{kind}({self})")
    }
}

/// A value of a tree, with all that is below it: a view of the records and text that hold it.
///
/// It may be made [of](Tree::of) any words whatever: every call and every iteration ends, and none
/// panics. What no reading leaves is taken so:
/// - a link that leads out of the words is none;
/// - a kind that isn't one counts as [`Kind::Uninitialized`];
/// - a string whose bytes aren't in the text has no text;
/// - a child of a map whose key can't be read ends the entries.
///
/// It displays as lines, a value each, and what is below a value is indented by two spaces; with
/// `{:?}` it looks like a map or a list of Rust. Both show bytes as [`Quoted`] does, and draw at
/// most as many values as there are records, as many bytes as the text has, and
/// [`MAX_LEVEL`](crate::MAX_LEVEL) levels; what passes these bounds, which no reading's tree does,
/// is left out.
///
/// ```
/// use qs::{Buffers, Kind, Ticket};
/// let mut buffers = Buffers::for_len(64);
/// let ticket = Ticket::new("plate[0][page]=4&caption=Fog+at+dawn&h[]=10&h[]=9");
/// let tree = ticket.parse(&mut buffers)?.tree();
/// assert_eq!(tree.kind(), Kind::Map);
/// let page = tree.get("plate").and_then(|plate| plate.get(0)?.get("page"));
/// assert_eq!(page.and_then(|page| page.text()), Some(&b"4"[..]));
/// assert_eq!(tree.to_string(), r#"map
///   "caption": "Fog at dawn"
///   "h": sequence
///     - "10"
///     - "9"
///   "plate": map
///     0: map
///       "page": "4""#);
/// let debugged = r#"{"caption": "Fog at dawn", "h": ["10", "9"], "plate": {0: {"page": "4"}}}"#;
/// assert_eq!(format!("{tree:?}"), debugged);
/// # Ok::<(), qs::Refused>(())
/// ```
#[derive(Clone, Copy)]
pub struct Tree<'a> {
    pub(crate) records: &'a [u32],
    pub(crate) text: &'a [u8],
    record: &'a [u32; RECORD_WORDS],
}

impl<'a> Tree<'a> {
    /// The tree whose root is the first record, if the words have one; they may be any words.
    ///
    /// ```
    /// use qs::{Kind, Tree, RECORD_WORDS};
    /// assert_eq!(Tree::of(&[9; RECORD_WORDS], b"").unwrap().kind(), Kind::Uninitialized);
    /// assert!(Tree::of(&[9; RECORD_WORDS - 1], b"").is_none());
    /// ```
    pub fn of(records: &'a [u32], text: &'a [u8]) -> Option<Self> {
        Tree::at(records, text, 0)
    }

    fn at(records: &'a [u32], text: &'a [u8], number: u32) -> Option<Self> {
        let record = row::record(records, number)?;
        Some(Tree {
            records,
            text,
            record,
        })
    }

    /// What it is.
    ///
    /// ```
    /// use qs::{Buffers, Kind, Ticket};
    /// let mut buffers = Buffers::for_len(2);
    /// assert_eq!(Ticket::new("a").parse(&mut buffers)?.tree().kind(), Kind::Map);
    /// assert_eq!(Ticket::new("").parse(&mut buffers)?.tree().kind(), Kind::NoValue);
    /// assert_eq!(Ticket::new("&&").parse(&mut buffers)?.tree().kind(), Kind::Uninitialized);
    /// # Ok::<(), qs::Refused>(())
    /// ```
    pub fn kind(self) -> Kind {
        Kind::of(self.record[row::KIND])
    }

    /// The value under a key, where this is a map that has the key.
    ///
    /// ```
    /// use qs::{Buffers, Ticket};
    /// let mut buffers = Buffers::for_len(16);
    /// let tree = Ticket::new("1=a&%31=b").parse(&mut buffers)?.tree();
    /// assert_eq!(tree.get(1).and_then(|value| value.text_str()), Some("a"));
    /// assert_eq!(tree.get("1").and_then(|value| value.text_str()), Some("b"));
    /// assert!(tree.get("2").is_none());
    /// # Ok::<(), qs::Refused>(())
    /// ```
    pub fn get<'k>(self, key: impl Into<Key<'k>>) -> Option<Tree<'a>> {
        let wanted = key.into();
        let (_, value) = self.entries().find(|(key, _)| *key == wanted)?;
        Some(value)
    }

    /// The keys and values of a map, in the order of keys; none of anything else.
    ///
    /// ```
    /// use qs::{Buffers, Key, Ticket};
    /// let mut buffers = Buffers::for_len(16);
    /// let tree = Ticket::new("w=fog&7=x&h=9").parse(&mut buffers)?.tree();
    /// let keys = tree.entries().map(|(key, _)| key);
    /// assert!(keys.eq([Key::Int(7), Key::String(b"h"), Key::String(b"w")]));
    /// # Ok::<(), qs::Refused>(())
    /// ```
    pub fn entries(self) -> Entries<'a> {
        Entries(self.children(Kind::Map))
    }

    /// The elements of a sequence, in their order; none of anything else.
    ///
    /// ```
    /// use qs::{Buffers, Ticket, Tree};
    /// let mut buffers = Buffers::for_len(16);
    /// let h = Ticket::new("h[]=10&h[]=9").parse(&mut buffers)?.tree().get("h").unwrap();
    /// assert!(h.elements().filter_map(Tree::text_str).eq(["10", "9"]));
    /// # Ok::<(), qs::Refused>(())
    /// ```
    pub fn elements(self) -> Elements<'a> {
        Elements(self.children(Kind::Sequence))
    }

    /// The bytes of a string; of anything else there are none.
    ///
    /// ```
    /// use qs::{Buffers, Ticket};
    /// let mut buffers = Buffers::for_len(16);
    /// let tree = Ticket::new("a=%FF&b=&c").parse(&mut buffers)?.tree();
    /// assert_eq!(tree.get("a").and_then(|value| value.text()), Some(&b"\xFF"[..]));
    /// assert_eq!(tree.get("b").and_then(|value| value.text()), None);
    /// # Ok::<(), qs::Refused>(())
    /// ```
    pub fn text(self) -> Option<&'a [u8]> {
        let (offset, length) = (self.record[row::TEXT], self.record[row::TEXT_LEN]);
        match self.kind() {
            Kind::String => row::part(self.text, offset, length),
            _ => None,
        }
    }

    /// The text of a string whose bytes are UTF-8.
    ///
    /// ```
    /// use qs::{Buffers, Ticket, Tree};
    /// let mut buffers = Buffers::for_len(16);
    /// let tree = Ticket::new("a=%C3%A9&b=%FF").parse(&mut buffers)?.tree();
    /// assert_eq!(tree.get("a").and_then(Tree::text_str), Some("é"));
    /// assert_eq!(tree.get("b").and_then(Tree::text_str), None);
    /// # Ok::<(), qs::Refused>(())
    /// ```
    pub fn text_str(self) -> Option<&'a str> {
        core::str::from_utf8(self.text()?).ok()
    }

    /// How many records there are, also those that are no part of the tree.
    pub(crate) fn count(self) -> usize {
        self.records.len() / RECORD_WORDS
    }

    /// The key that it stands under, if it has one that can be read.
    fn key(self) -> Option<Key<'a>> {
        let (key, length) = (self.record[row::KEY], self.record[row::KEY_LEN]);
        match self.record[row::KEY_KIND] {
            row::INT_KEY => Some(Key::Int(key)),
            row::STRING_KEY => row::part(self.text, key, length).map(Key::String),
            _ => None,
        }
    }

    /// The children of a value of that kind; of any other there are none.
    fn children(self, kind: Kind) -> Children<'a> {
        let next = if self.kind() == kind {
            self.record[row::CHILD]
        } else {
            NONE
        };
        Children {
            tree: self,
            next,
            left: self.count(),
        }
    }
}

/// The link that leads nowhere; it is the root's number, and the root is no child.
const NONE: u32 = 0;

/// The children of a value: at most as many as there are records, so that a circle ends.
#[derive(Clone)]
struct Children<'a> {
    tree: Tree<'a>,
    next: u32,
    left: usize,
}

impl<'a> Iterator for Children<'a> {
    type Item = Tree<'a>;

    fn next(&mut self) -> Option<Tree<'a>> {
        if self.next == NONE {
            return None;
        }
        self.left = self.left.checked_sub(1)?;
        let child = Tree::at(self.tree.records, self.tree.text, self.next)?;
        self.next = child.record[row::NEXT];
        Some(child)
    }

    fn size_hint(&self) -> (usize, Option<usize>) {
        (0, Some(self.left))
    }
}

/// The keys and values of a map: what [`Tree::entries`] gives.
#[derive(Clone)]
pub struct Entries<'a>(Children<'a>);

impl<'a> Iterator for Entries<'a> {
    type Item = (Key<'a>, Tree<'a>);

    fn next(&mut self) -> Option<Self::Item> {
        let child = self.0.next()?;
        let Some(key) = child.key() else {
            self.0.next = NONE;
            return None;
        };
        Some((key, child))
    }

    fn size_hint(&self) -> (usize, Option<usize>) {
        self.0.size_hint()
    }
}

impl FusedIterator for Entries<'_> {}

impl fmt::Debug for Entries<'_> {
    fn fmt(&self, f: &mut fmt::Formatter) -> fmt::Result {
        fmt::Debug::fmt(&self.0.tree, f)
    }
}

/// The elements of a sequence: what [`Tree::elements`] gives.
#[derive(Clone)]
pub struct Elements<'a>(Children<'a>);

impl<'a> Iterator for Elements<'a> {
    type Item = Tree<'a>;

    fn next(&mut self) -> Option<Tree<'a>> {
        self.0.next()
    }

    fn size_hint(&self) -> (usize, Option<usize>) {
        self.0.size_hint()
    }
}

impl FusedIterator for Elements<'_> {}

impl fmt::Debug for Elements<'_> {
    fn fmt(&self, f: &mut fmt::Formatter) -> fmt::Result {
        fmt::Debug::fmt(&self.0.tree, f)
    }
}

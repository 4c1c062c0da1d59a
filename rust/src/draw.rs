//! A tree drawn for a person. Whatever the words hold, drawing ends soon: it is charged for each
//! value and each byte, and no reading's tree has more of these than the records and text it lies
//! in.

use crate::{Key, Kind, Tree, MAX_DEPTH};
use core::cell::Cell;
use core::fmt;

/// The deepest level that a value of a reading can lie at, where the root is at 0 (READING, 'The
/// listing'): the root's keys, one level for each bracket, the key past the depth, and its
/// elements.
pub const MAX_LEVEL: u32 = MAX_DEPTH + 3;

/// Bytes for a person to look at: in quotes, as text where they are UTF-8, and with escapes for all
/// that a terminal would obey.
///
/// ```
/// use qs::Quoted;
/// assert_eq!(Quoted("é\x1b[2J".as_bytes()).to_string(), r#""é\u{1b}[2J""#);
/// assert_eq!(Quoted(b"\xFF\x1b").to_string(), r#""\xff\x1b""#);
/// ```
#[derive(Clone, Copy, Debug, PartialEq, Eq)]
pub struct Quoted<'a>(
    /// The bytes.
    pub &'a [u8],
);

impl fmt::Display for Quoted<'_> {
    fn fmt(&self, f: &mut fmt::Formatter) -> fmt::Result {
        match core::str::from_utf8(self.0) {
            Ok(text) => write!(f, "{text:?}"),
            Err(_) => write!(f, "\"{}\"", self.0.escape_ascii()),
        }
    }
}

/// How many values and bytes may still be drawn.
struct Left {
    values: Cell<usize>,
    bytes: Cell<usize>,
}

impl Left {
    /// What is left once the tree's root is drawn, which can always be.
    fn below(tree: Tree) -> Self {
        let of_the_root = tree.text().map_or(0, <[u8]>::len);
        Left {
            values: Cell::new(tree.count() - 1),
            bytes: Cell::new(tree.text.len() - of_the_root),
        }
    }

    /// Charges for a value and its key. Where that is too much nothing more is drawn.
    fn pays(&self, key: Option<Key>, value: Tree) -> bool {
        let of_the_key = match key {
            Some(Key::String(bytes)) => bytes.len(),
            _ => 0,
        };
        let bytes = of_the_key + value.text().map_or(0, <[u8]>::len);
        let values = self.values.get().checked_sub(1);
        match values.zip(self.bytes.get().checked_sub(bytes)) {
            Some((values, bytes)) => {
                self.values.set(values);
                self.bytes.set(bytes);
                true
            }
            None => {
                self.values.set(0);
                false
            }
        }
    }
}

/// A value to draw, its level, and what is left to draw altogether.
#[derive(Clone, Copy)]
struct Drawn<'a, 'l> {
    tree: Tree<'a>,
    level: u32,
    left: &'l Left,
}

impl<'a, 'l> Drawn<'a, 'l> {
    fn root(tree: Tree<'a>, left: &'l Left) -> Self {
        let level = 0;
        Drawn { tree, level, left }
    }

    fn below(self, key: Option<Key>, tree: Tree<'a>) -> Option<Self> {
        let (level, left) = (self.level + 1, self.left);
        let drawn = level <= MAX_LEVEL && left.pays(key, tree);
        drawn.then_some(Drawn { tree, level, left })
    }

    /// The entries of a map and the elements of a sequence, as long as they can be drawn; each is
    /// charged at its turn, once what is below the one before it is drawn.
    fn children(self) -> impl Iterator<Item = (Option<Key<'a>>, Drawn<'a, 'l>)> {
        let entries = self.tree.entries().map(|(key, value)| (Some(key), value));
        // One of the two is empty.
        let children = entries.chain(self.tree.elements().map(|value| (None, value)));
        children.map_while(move |(key, value)| Some((key, self.below(key, value)?)))
    }

    /// Its line without what stands in front, and the lines below it.
    fn lines(self, f: &mut fmt::Formatter) -> fmt::Result {
        match self.tree.text() {
            Some(bytes) => write!(f, "{}", Quoted(bytes))?,
            None => write!(f, "{}", self.tree.kind())?,
        }
        for (key, child) in self.children() {
            let indent = 2 * child.level as usize;
            write!(f, "\n{:indent$}", "")?;
            match key {
                Some(key) => write!(f, "{key}: ")?,
                None => f.write_str("- ")?,
            }
            child.lines(f)?;
        }
        Ok(())
    }

    fn map(self, f: &mut fmt::Formatter) -> fmt::Result {
        let mut map = f.debug_map();
        for (key, value) in self.tree.entries() {
            let Some(child) = self.below(Some(key), value) else {
                break;
            };
            map.entry(&format_args!("{key}"), &child);
        }
        map.finish()
    }
}

impl fmt::Debug for Drawn<'_, '_> {
    fn fmt(&self, f: &mut fmt::Formatter) -> fmt::Result {
        match (self.tree.kind(), self.tree.text()) {
            (Kind::Map, _) => self.map(f),
            (Kind::Sequence, _) => f
                .debug_list()
                .entries(self.children().map(|(_, child)| child))
                .finish(),
            (_, Some(bytes)) => write!(f, "{}", Quoted(bytes)),
            (kind, None) => write!(f, "{kind:?}"),
        }
    }
}

impl fmt::Display for Tree<'_> {
    fn fmt(&self, f: &mut fmt::Formatter) -> fmt::Result {
        Drawn::root(*self, &Left::below(*self)).lines(f)
    }
}

impl fmt::Debug for Tree<'_> {
    fn fmt(&self, f: &mut fmt::Formatter) -> fmt::Result {
        fmt::Debug::fmt(&Drawn::root(*self, &Left::below(*self)), f)
    }
}

//! The rows of docs/DIFFERENCES.md's first table, each a function: what they make of the URL
//! Standard's stretches. No tree is built here; a reading is a list of leaves, each a path of keys
//! with the value that stands there, and what clashes shows in the paths.

use super::whatwg::{decoded, failed_escapes, split, stretches};
use qs::{refusal, Config};
use serde_qs_reference::{Key, Tree};
use std::cmp::Ordering;
use std::ops::Range;

/// The rows, in the table's order; that on the limits is left out, which no short input meets.
#[derive(Clone, Copy, Debug, PartialEq, Eq)]
pub enum Row {
    SwallowedEscape,
    SwallowedPlus,
    Nested,
    EmptyBrackets,
    AmpersandInKey,
    EqualsInKey,
    FormBrackets,
    Depth,
    MarkAtDepth,
    NotClosed,
    ByteAfter,
    NotBoth,
    NoValue,
    Nameless,
    NoPairs,
    Digits,
    Twice,
    EmptyKey,
    KeyOrder,
    NotUtf8,
}

impl Row {
    pub const COUNT: usize = Row::NotUtf8 as usize + 1;
}

/// A path of keys from the root, and what stands there: a sequence or a single value, but no map.
pub type Leaf = (Vec<Key>, Tree);

/// What the rows make of an input: its leaves in order, or the refusal's number; and which rows
/// were at work in it.
pub struct Expected {
    pub leaves: Result<Vec<Leaf>, u32>,
    rows: u32,
}

impl Expected {
    /// The places of those rows in the table. Without any the names and values are the standard's
    /// as they stand.
    pub fn rows(&self) -> impl Iterator<Item = usize> {
        let rows = self.rows;
        (0..Row::COUNT).filter(move |place| rows >> place & 1 == 1)
    }
}

pub fn expected(config: Config, input: &[u8]) -> Expected {
    let mut reading = Reading {
        config,
        leaves: Vec::new(),
        rows: 0,
    };
    let answer = reading.pairs(input);
    match answer {
        Ok(()) if reading.leaves.is_empty() => reading.without_pairs(input),
        Ok(()) => reading.in_key_order(),
        Err(number) => reading.work(row_of(number)),
    }
    Expected {
        leaves: answer.map(|()| reading.leaves),
        rows: reading.rows,
    }
}

/// Brackets that aren't closed are refused, so is another byte after them, and so is a value that
/// can't be both.
fn row_of(number: u32) -> Row {
    match number {
        refusal::END_AFTER_OPENING..=refusal::END_BEFORE_CLOSING => Row::NotClosed,
        refusal::SEQUENCE_ON_MAP..=refusal::MAP_ON_NULL => Row::NotBoth,
        refusal::BYTE_AFTER_KEY..=refusal::BYTE_AFTER_BRACKETS => Row::ByteAfter,
        _ => panic!("no row refuses by {number}"),
    }
}

/// A pair: each key of its path wants a map above it; then what its end wants there, and the value,
/// or why it has none.
struct Pair {
    path: Vec<Key>,
    wants: Wants,
    value: Result<Tree, u32>,
}

enum Wants {
    Nothing,
    Map,
    Sequence,
}

struct Reading {
    config: Config,
    leaves: Vec<Leaf>,
    rows: u32,
}

impl Reading {
    /// Notes that a row is at work.
    fn work(&mut self, row: Row) {
        self.rows |= 1 << row as u32;
    }

    fn pairs(&mut self, input: &[u8]) -> Result<(), u32> {
        let mut rest = stretches(input);
        while let Some(stretch) = rest.next() {
            if !stretch.is_empty() {
                let pair = self.whole_pair(stretch, &mut rest);
                self.put(pair)?;
            }
        }
        Ok(())
    }

    /// An `&` inside a bracket's key is part of it: a stretch that ends inside of a bracket goes on
    /// in the next one.
    fn whole_pair<'a>(&mut self, first: &[u8], rest: &mut impl Iterator<Item = &'a [u8]>) -> Pair {
        let mut text = first.to_vec();
        let mut pair = self.pair(&text);
        while let Err(refusal::END_AFTER_OPENING | refusal::END_BEFORE_CLOSING) = pair.value {
            let Some(next) = rest.next() else { break };
            text.push(b'&');
            text.extend_from_slice(next);
            pair = self.pair(&text);
        }
        pair
    }

    /// A pair is the standard's if its name has no brackets, or brackets don't nest at all.
    fn pair(&mut self, text: &[u8]) -> Pair {
        let (name, value) = split(text);
        let nests = self.config.depth > 0;
        if let Some(opening) = nests.then(|| self.find(name, b'[')).flatten() {
            let path = self.path(&text[..opening.start]);
            return self.nested(path, &text[opening.start..], 0);
        }
        Pair {
            path: self.path(name),
            wants: Wants::Nothing,
            value: Ok(self.value(value)),
        }
    }

    /// Brackets nest: each key in them goes one further down. Brackets that aren't closed are
    /// refused: 4 where the end comes straight after, else 5, once there is a map for the key.
    fn nested(&mut self, mut path: Vec<Key>, text: &[u8], level: u32) -> Pair {
        let opening = self.starts(text, b'[').expect("a bracket opens here");
        let inside = &text[opening..];
        if inside.is_empty() {
            return refused(path, Wants::Nothing, refusal::END_AFTER_OPENING);
        }
        let at_depth = level == self.config.depth;
        if at_depth {
            self.work(Row::Depth);
        }
        if let Some(closing) = self.starts(inside, b']') {
            return self.element(path, &inside[closing..]);
        }
        if at_depth {
            return self.at_depth(path, text, opening);
        }
        let Some(closing) = self.find(inside, b']') else {
            return refused(path, Wants::Map, refusal::END_BEFORE_CLOSING);
        };
        path.push(self.key_in_brackets(&inside[..closing.start]));
        self.work(Row::Nested);
        let after = &inside[closing.end..];
        if self.starts(after, b'[').is_some() {
            return self.nested(path, after, level + 1);
        }
        Pair {
            path,
            wants: Wants::Nothing,
            value: self.end(after, refusal::BYTE_AFTER_KEY),
        }
    }

    /// Empty brackets make a sequence, at the depth too. Another byte after them is refused: 12 if
    /// it is a bracket, else 13.
    fn element(&mut self, path: Vec<Key>, after: &[u8]) -> Pair {
        self.work(Row::EmptyBrackets);
        let value = match self.starts(after, b'[') {
            Some(_) => Err(refusal::OPENING_AFTER_BRACKETS),
            None => self.end(after, refusal::BYTE_AFTER_BRACKETS),
        };
        Pair {
            path,
            wants: Wants::Sequence,
            value,
        }
    }

    /// From the depth on, brackets belong to the key; so does an `&` or `=` straight after the
    /// first of them.
    fn at_depth(&mut self, mut path: Vec<Key>, text: &[u8], opening: usize) -> Pair {
        let (first, others) = text.split_at(opening + 1);
        let (more, value) = split(others);
        if matches!(first.last(), Some(b'&' | b'=')) {
            self.work(Row::MarkAtDepth);
        }
        path.push(self.key(&[first, more].concat()));
        Pair {
            path,
            wants: Wants::Nothing,
            value: Ok(self.value(value)),
        }
    }

    /// With the form flag on, `%5B` and `%5D` are brackets. Gives how long the bracket at the
    /// text's start is.
    fn starts(&mut self, text: &[u8], bracket: u8) -> Option<usize> {
        let escape = if bracket == b'[' { b"%5B" } else { b"%5D" };
        if text.first() == Some(&bracket) {
            return Some(1);
        }
        if !self.config.form || !text.starts_with(escape) {
            return None;
        }
        self.work(Row::FormBrackets);
        Some(escape.len())
    }

    /// The first such bracket.
    fn find(&mut self, text: &[u8], bracket: u8) -> Option<Range<usize>> {
        (0..text.len()).find_map(|place| {
            let length = self.starts(&text[place..], bracket)?;
            Some(place..place + length)
        })
    }

    /// After a name's last bracket comes its `=` or nothing; another byte is refused by the number
    /// given.
    fn end(&mut self, after: &[u8], another: u32) -> Result<Tree, u32> {
        match split(after) {
            ([], value) => Ok(self.value(value)),
            _ => Err(another),
        }
    }

    /// A name without `=` has no value, which is told from an empty one.
    fn value(&mut self, raw: Option<&[u8]>) -> Tree {
        match raw {
            None => {
                self.work(Row::NoValue);
                Tree::NoValue
            }
            Some([]) => Tree::Null,
            Some(raw) => Tree::String(self.text(raw)),
        }
    }

    /// A pair without a name goes to the root itself.
    fn path(&mut self, name: &[u8]) -> Vec<Key> {
        match name {
            [] => Vec::new(),
            _ => vec![self.key(name)],
        }
    }

    /// An `&` inside a bracket's key is part of it; so is an `=`.
    fn key_in_brackets(&mut self, raw: &[u8]) -> Key {
        if raw.contains(&b'&') {
            self.work(Row::AmpersandInKey);
        }
        if raw.contains(&b'=') {
            self.work(Row::EqualsInKey);
        }
        self.key(raw)
    }

    /// A name of digits is a number, if it isn't too large; the raw bytes tell.
    fn key(&mut self, raw: &[u8]) -> Key {
        let digits = raw.iter().all(u8::is_ascii_digit);
        let number = std::str::from_utf8(raw)
            .ok()
            .and_then(|raw| raw.parse().ok());
        match number {
            Some(number) if digits => {
                self.work(Row::Digits);
                Key::Int(number)
            }
            _ => Key::String(self.text(raw)),
        }
    }

    /// A failed escape swallows the next byte or two, and a `+` among them stays; the rest is
    /// decoded as the standard has it. Bytes are not replaced where they aren't UTF-8.
    fn text(&mut self, raw: &[u8]) -> Vec<u8> {
        let mut text = Vec::new();
        let mut from = 0;
        for escape in failed_escapes(raw) {
            text.extend(decoded(&raw[from..escape.start]));
            from = escape.end;
            if raw[escape.clone()].contains(&b'+') {
                self.work(Row::SwallowedPlus);
            }
            text.extend_from_slice(&raw[escape]);
        }
        text.extend(decoded(&raw[from..]));
        // What is decoded is shorter than its escape: so is the standard's text, where one was
        // swallowed.
        if from > 0 && decoded(raw).len() < text.len() {
            self.work(Row::SwallowedEscape);
        }
        if std::str::from_utf8(&text).is_err() {
            self.work(Row::NotUtf8);
        }
        text
    }

    /// A value that can't be both is refused; the first such on the way down.
    fn put(&mut self, pair: Pair) -> Result<(), u32> {
        for length in 0..pair.path.len() {
            self.want_map(&pair.path[..length])?;
        }
        match pair.wants {
            Wants::Nothing => {}
            Wants::Map => self.want_map(&pair.path)?,
            Wants::Sequence => self.want_sequence(&pair.path)?,
        }
        let value = pair.value?;
        match pair.wants {
            Wants::Sequence => self.add(pair.path, Tree::Sequence(vec![value])),
            _ => self.add_single(pair.path, value),
        }
        Ok(())
    }

    fn want_map(&self, path: &[Key]) -> Result<(), u32> {
        match self.held(path) {
            None => Ok(()),
            Some(Tree::Sequence(_)) => Err(refusal::MAP_ON_SEQUENCE),
            Some(Tree::String(_)) => Err(refusal::MAP_ON_STRING),
            Some(_) => Err(refusal::MAP_ON_NULL),
        }
    }

    fn want_sequence(&self, path: &[Key]) -> Result<(), u32> {
        match self.held(path) {
            _ if self.is_map(path) => Err(refusal::SEQUENCE_ON_MAP),
            None | Some(Tree::Sequence(_)) => Ok(()),
            Some(_) => Err(refusal::SEQUENCE_ON_SINGLE),
        }
    }

    fn held(&self, path: &[Key]) -> Option<&Tree> {
        let (_, value) = self.leaves.iter().find(|(held, _)| held == path)?;
        Some(value)
    }

    /// A map is where a leaf is further down.
    fn is_map(&self, path: &[Key]) -> bool {
        let below = |(held, _): &Leaf| held.len() > path.len() && held.starts_with(path);
        self.leaves.iter().any(below)
    }

    /// A map below the root takes a later single value under its empty key. A pair without a name
    /// goes to the root itself, unless that is a map by then: then it has the empty key, as in the
    /// standard.
    fn add_single(&mut self, mut path: Vec<Key>, value: Tree) {
        match (self.is_map(&path), path.is_empty()) {
            (true, false) => self.work(Row::EmptyKey),
            (false, true) => self.work(Row::Nameless),
            _ => {}
        }
        if self.is_map(&path) {
            path.push(Key::String(Vec::new()));
        }
        self.add(path, value);
    }

    /// A name given twice has one value, a sequence.
    fn add(&mut self, path: Vec<Key>, value: Tree) {
        let elements = |value: Tree| match value {
            Tree::Sequence(elements) => elements,
            single => vec![single],
        };
        let Some(place) = self.leaves.iter().position(|(held, _)| *held == path) else {
            self.leaves.push((path, value));
            return;
        };
        self.work(Row::Twice);
        let held = std::mem::replace(&mut self.leaves[place].1, Tree::NoValue);
        self.leaves[place].1 = Tree::Sequence([elements(held), elements(value)].concat());
    }

    /// Names stand in key order.
    fn in_key_order(&mut self) {
        let order = |one: &Leaf, other: &Leaf| compare(&one.0, &other.0);
        let mut pairs = self.leaves.windows(2);
        if pairs.any(|two| order(&two[0], &two[1]) == Ordering::Greater) {
            self.work(Row::KeyOrder);
            self.leaves.sort_by(order);
        }
    }

    /// An input of `&` alone is told from the empty one, though both have no pairs.
    fn without_pairs(&mut self, input: &[u8]) {
        let root = if input.is_empty() {
            Tree::NoValue
        } else {
            self.work(Row::NoPairs);
            Tree::Uninitialized
        };
        self.leaves.push((Vec::new(), root));
    }
}

fn refused(path: Vec<Key>, wants: Wants, number: u32) -> Pair {
    Pair {
        path,
        wants,
        value: Err(number),
    }
}

/// Numbers by value, then the others by their bytes; of two paths the first keys that differ
/// decide.
fn compare(one: &[Key], other: &[Key]) -> Ordering {
    fn rank(key: &Key) -> (bool, u32, &[u8]) {
        match key {
            Key::Int(number) => (false, *number, b""),
            Key::String(bytes) => (true, 0, bytes),
        }
    }
    one.iter().map(rank).cmp(other.iter().map(rank))
}

/// The leaves of a tree, in its own order. An empty map, which no reading leaves, would show as a
/// leaf.
pub fn leaves(tree: &Tree) -> Vec<Leaf> {
    fn walk(tree: &Tree, path: &mut Vec<Key>, leaves: &mut Vec<Leaf>) {
        match tree {
            Tree::Map(entries) if !entries.is_empty() => {
                for (key, value) in entries {
                    path.push(key.clone());
                    walk(value, path, leaves);
                    path.pop();
                }
            }
            other => leaves.push((path.clone(), other.clone())),
        }
    }
    let mut found = Vec::new();
    walk(tree, &mut Vec::new(), &mut found);
    found
}

//! A model of the reading that docs/READING.md describes, in `fields` of its field reads, in
//! `sheet` of its sheet, and in `ser` of its writer. It is recursive, as the source's parser is,
//! with values in a growing list instead of lent records. It shares nothing with the proved reader,
//! and gives everything that a call answers and leaves.

mod fields;
pub mod row;
mod ser;
mod sheet;
pub use fields::{fields, list, text, FieldOutcome, FieldsOutcome, Names, ANSWER_WORDS};
use row::WIDTH;
pub use ser::{write, written, WriteOutcome};
pub use sheet::{sheet, SheetOutcome, SHEET_LINE};

/// How a reading is set (READING, 'Settings'): `depth` is refused above [`MAX_DEPTH`], and under
/// `zeros` those in front of a number count.
#[derive(Clone, Copy, Debug, PartialEq, Eq)]
pub struct Config {
    pub depth: u32,
    pub form: bool,
    pub zeros: bool,
}

/// What a reading answers, and what it leaves in the lent buffers.
#[derive(Clone, Debug, PartialEq, Eq)]
pub struct Outcome {
    pub number: u32,
    pub place: u32,
    pub records: u32,
    pub bytes: u32,
    pub words: Vec<u32>,
    pub text: Vec<u8>,
}

impl Outcome {
    /// A refusal before the first byte.
    fn untouched(number: u32, words: &[u32], text: &[u8]) -> Self {
        Outcome {
            number,
            place: 0,
            records: 0,
            bytes: 0,
            words: words.to_vec(),
            text: text.to_vec(),
        }
    }
}

/// The limits (READING, 'Settings'): how deep brackets may nest, and how many bytes an input may
/// have.
pub const MAX_DEPTH: u32 = 64;
pub const MAX_LEN: usize = 65_535;

/// Reads `input` where `words` and `text` are lent, which hold anything before.
pub fn read(config: Config, input: &[u8], words: &[u32], text: &[u8]) -> Outcome {
    match accept(config, input, words, text) {
        Ok(reader) => reader.accepted(words.len(), text.len()),
        Err(refused) => refused,
    }
}

/// The reader after it has accepted the input, or what a refused reading answers and leaves.
fn accept<'a>(
    config: Config,
    input: &'a [u8],
    words: &[u32],
    text: &[u8],
) -> Result<Reader<'a>, Outcome> {
    let untouched = |number| Outcome::untouched(number, words, text);
    if config.depth > MAX_DEPTH {
        return Err(untouched(1));
    }
    if input.len() > MAX_LEN {
        return Err(untouched(2));
    }
    if words.len() < WIDTH {
        return Err(untouched(3));
    }
    let mut reader = Reader {
        config,
        input,
        place: 0,
        segment: (0, 0),
        records: words.len() / WIDTH,
        bytes: text.len(),
        nodes: vec![Node::new(Kind::Uninitialized)],
        text: Vec::new(),
    };
    match reader.parse() {
        Ok(()) => Ok(reader),
        Err(number) => Err(Outcome {
            place: reader.place as u32,
            words: vec![0; words.len()],
            text: vec![0; text.len()],
            ..untouched(number)
        }),
    }
}

#[derive(Clone, PartialEq, Eq, PartialOrd, Ord)]
enum Key {
    Int(u32),
    String(Vec<u8>),
}

/// A value that isn't in the tree yet.
enum Leaf {
    Null,
    NoValue,
    String(Vec<u8>),
}

#[derive(Clone, Copy, PartialEq)]
enum Kind {
    Uninitialized,
    Map,
    Sequence,
    String { offset: usize, length: usize },
    Null,
    NoValue,
}

/// A value of the tree. Its number is its index; children stand in their order.
struct Node {
    kind: Kind,
    key: Option<(Key, usize)>,
    children: Vec<usize>,
}

impl Node {
    fn new(kind: Kind) -> Self {
        Node {
            kind,
            key: None,
            children: Vec::new(),
        }
    }
}

struct Reader<'a> {
    config: Config,
    input: &'a [u8],
    place: usize,
    segment: (usize, usize),
    records: usize,
    bytes: usize,
    nodes: Vec<Node>,
    text: Vec<u8>,
}

type Refused = Result<(), u32>;

impl Reader<'_> {
    // Taking a byte, and segments.

    fn next(&mut self) -> Option<u8> {
        self.segment.1 = self.place;
        let rest = self.input.get(self.place..).unwrap_or_default();
        let bracket = match rest {
            [b'%', b'5', b'B', ..] if self.config.form => Some(b'['),
            [b'%', b'5', b'D', ..] if self.config.form => Some(b']'),
            _ => None,
        };
        self.place += if bracket.is_some() { 3 } else { 1 };
        bracket.or(rest.first().copied())
    }

    fn start_segment(&mut self) {
        self.segment = (self.place, self.place);
    }

    fn collect_key(&mut self) -> Option<Key> {
        let (start, end) = self.segment;
        self.start_segment();
        if start == end {
            // also past the end, where there is nothing to cut a part from
            return None;
        }
        let raw = &self.input[start..end];
        Some(match int(self.config, raw) {
            Some(int) => Key::Int(int),
            None => Key::String(decode(raw)),
        })
    }

    fn collect_value(&mut self) -> Leaf {
        self.start_segment();
        while !matches!(self.next(), None | Some(b'&')) {}
        match &self.input[self.segment.0..self.segment.1] {
            [] => Leaf::Null,
            raw => Leaf::String(decode(raw)),
        }
    }

    // The root and brackets.

    fn parse(&mut self) -> Refused {
        if self.input.is_empty() {
            self.nodes[0].kind = Kind::NoValue;
            return Ok(());
        }
        loop {
            match self.next() {
                None => {
                    if let Some(key) = self.collect_key() {
                        self.insert_unique(0, key, Leaf::NoValue)?;
                    }
                    return Ok(());
                }
                Some(b'&') => {
                    if let Some(key) = self.collect_key() {
                        self.insert_unique(0, key, Leaf::NoValue)?;
                    }
                }
                Some(b'=') => {
                    let key = self.collect_key();
                    let leaf = self.collect_value();
                    match key {
                        Some(key) => self.insert_unique(0, key, leaf)?,
                        None => self.append_value(0, leaf)?,
                    }
                }
                Some(b'[') if self.config.depth > 0 => {
                    let opened = self.segment.1;
                    let node = match self.collect_key() {
                        Some(key) => self.enter(0, key)?,
                        None => 0,
                    };
                    self.parse_nested_key(node, 0, opened)?;
                }
                Some(_) => continue,
            }
            self.start_segment();
        }
    }

    /// `opened` is where the `[` stands.
    fn parse_nested_key(&mut self, node: usize, level: u32, opened: usize) -> Refused {
        let at_depth = level >= self.config.depth;
        self.segment.0 = if at_depth { opened } else { self.place };
        match self.next() {
            None => return Err(4),
            Some(b']') => return self.parse_sequence_value(node),
            Some(_) => self.expect_map(node)?,
        }
        if at_depth {
            return self.key_at_depth(node);
        }
        loop {
            match self.next() {
                None => return Err(5),
                Some(b']') => break,
                Some(_) => {}
            }
        }
        let key = self.collect_key().expect("it has its first byte");
        let opened = self.place;
        match self.next() {
            None | Some(b'&') => self.insert_unique(node, key, Leaf::NoValue),
            Some(b'=') => {
                let leaf = self.collect_value();
                self.insert_unique(node, key, leaf)
            }
            Some(b'[') => {
                let child = self.enter(node, key)?;
                self.parse_nested_key(child, level + 1, opened)
            }
            Some(_) => Err(11),
        }
    }

    fn key_at_depth(&mut self, node: usize) -> Refused {
        loop {
            match self.next() {
                None | Some(b'&') => {
                    let key = self.collect_key().expect("it has its `[`");
                    return self.insert_unique(node, key, Leaf::NoValue);
                }
                Some(b'=') => {
                    let key = self.collect_key().expect("it has its `[`");
                    let leaf = self.collect_value();
                    return self.insert_unique(node, key, leaf);
                }
                Some(_) => {}
            }
        }
    }

    fn parse_sequence_value(&mut self, node: usize) -> Refused {
        match self.nodes[node].kind {
            Kind::Uninitialized => self.nodes[node].kind = Kind::Sequence,
            Kind::Sequence => {}
            Kind::Map => return Err(6),
            Kind::String { .. } | Kind::Null | Kind::NoValue => return Err(7),
        }
        let leaf = match self.next() {
            Some(b'=') => self.collect_value(),
            None | Some(b'&') => Leaf::NoValue,
            Some(b'[') => return Err(12),
            Some(_) => return Err(13),
        };
        self.push(node, leaf)
    }

    // The tree, and what is charged.

    fn expect_map(&mut self, node: usize) -> Refused {
        match self.nodes[node].kind {
            Kind::Uninitialized => self.nodes[node].kind = Kind::Map,
            Kind::Map => {}
            Kind::Sequence => return Err(8),
            Kind::String { .. } => return Err(9),
            Kind::Null | Kind::NoValue => return Err(10),
        }
        Ok(())
    }

    fn charge(&self, records: usize, bytes: usize) -> Refused {
        if self.nodes.len() + records > self.records {
            return Err(14);
        }
        if self.text.len() + bytes > self.bytes {
            return Err(15);
        }
        Ok(())
    }

    /// The child that has the key, or where a new one belongs.
    fn find(&self, map: usize, key: &Key) -> Result<usize, usize> {
        let children = &self.nodes[map].children;
        let key_of = |child: &usize| &self.nodes[*child].key.as_ref().expect("keyed").0;
        children
            .binary_search_by(|child| key_of(child).cmp(key))
            .map(|found| children[found])
    }

    fn new_child(&mut self, map: usize, at: usize, key: Key) -> usize {
        let offset = self.lay(match &key {
            Key::Int(_) => &[],
            Key::String(bytes) => bytes,
        });
        let child = self.nodes.len();
        self.nodes.push(Node {
            key: Some((key, offset)),
            ..Node::new(Kind::Uninitialized)
        });
        self.nodes[map].children.insert(at, child);
        child
    }

    /// Lays bytes behind the text; the offset is 0 for none.
    fn lay(&mut self, bytes: &[u8]) -> usize {
        let offset = if bytes.is_empty() { 0 } else { self.text.len() };
        self.text.extend_from_slice(bytes);
        offset
    }

    fn settle(&mut self, node: usize, leaf: Leaf) {
        self.nodes[node].kind = match leaf {
            Leaf::Null => Kind::Null,
            Leaf::NoValue => Kind::NoValue,
            Leaf::String(bytes) => Kind::String {
                offset: self.lay(&bytes),
                length: bytes.len(),
            },
        };
    }

    fn enter(&mut self, map: usize, key: Key) -> Result<usize, u32> {
        self.expect_map(map)?;
        match self.find(map, &key) {
            Ok(child) => Ok(child),
            Err(at) => {
                self.charge(1, key.length())?;
                Ok(self.new_child(map, at, key))
            }
        }
    }

    fn insert_unique(&mut self, map: usize, key: Key, leaf: Leaf) -> Refused {
        self.expect_map(map)?;
        match self.find(map, &key) {
            Ok(child) => self.append_value(child, leaf),
            Err(at) => {
                self.charge(1, key.length() + leaf.length())?;
                let child = self.new_child(map, at, key);
                self.settle(child, leaf);
                Ok(())
            }
        }
    }

    fn push(&mut self, sequence: usize, leaf: Leaf) -> Refused {
        self.charge(1, leaf.length())?;
        let element = self.nodes.len();
        self.nodes.push(Node::new(Kind::Uninitialized));
        self.nodes[sequence].children.push(element);
        self.settle(element, leaf);
        Ok(())
    }

    fn append_value(&mut self, node: usize, leaf: Leaf) -> Refused {
        match self.nodes[node].kind {
            Kind::Map => self.insert_unique(node, Key::String(Vec::new()), leaf),
            Kind::Sequence => self.push(node, leaf),
            Kind::Uninitialized => {
                self.charge(0, leaf.length())?;
                self.settle(node, leaf);
                Ok(())
            }
            single => {
                self.charge(2, leaf.length())?;
                let old = self.nodes.len();
                self.nodes.push(Node::new(single));
                self.nodes[node].kind = Kind::Sequence;
                self.nodes[node].children.push(old);
                self.push(node, leaf)
            }
        }
    }

    // The words.

    fn accepted(&self, words: usize, bytes: usize) -> Outcome {
        let mut rows = vec![[0; WIDTH]; self.nodes.len()];
        for (words, node) in rows.iter_mut().zip(&self.nodes) {
            node.write(words);
        }
        for node in &self.nodes {
            for pair in node.children.windows(2) {
                rows[pair[0]][row::NEXT] = pair[1] as u32;
            }
        }
        let mut words_left = rows.concat();
        words_left.resize(words, 0);
        let mut text = self.text.clone();
        text.resize(bytes, 0);
        Outcome {
            number: 0,
            place: 0,
            records: self.nodes.len() as u32,
            bytes: self.text.len() as u32,
            words: words_left,
            text,
        }
    }
}

impl Node {
    /// All words but that of the next sibling.
    fn write(&self, words: &mut [u32; WIDTH]) {
        words[row::KIND] = match self.kind {
            Kind::Uninitialized => row::UNINITIALIZED,
            Kind::Map => row::MAP,
            Kind::Sequence => row::SEQUENCE,
            Kind::String { .. } => row::STRING,
            Kind::Null => row::NULL,
            Kind::NoValue => row::NO_VALUE,
        };
        match &self.key {
            None => words[row::KEY_KIND] = row::NO_KEY,
            Some((Key::Int(int), _)) => {
                words[row::KEY_KIND] = row::INT_KEY;
                words[row::KEY] = *int;
            }
            Some((Key::String(bytes), offset)) => {
                words[row::KEY_KIND] = row::STRING_KEY;
                words[row::KEY] = *offset as u32;
                words[row::KEY_LEN] = bytes.len() as u32;
            }
        }
        if let Kind::String { offset, length } = self.kind {
            words[row::TEXT] = offset as u32;
            words[row::TEXT_LEN] = length as u32;
        }
        words[row::CHILD] = self.children.first().map_or(0, |&child| child as u32);
    }
}

impl Key {
    fn length(&self) -> usize {
        match self {
            Key::Int(_) => 0,
            Key::String(bytes) => bytes.len(),
        }
    }
}

impl Leaf {
    fn length(&self) -> usize {
        match self {
            Leaf::Null | Leaf::NoValue => 0,
            Leaf::String(bytes) => bytes.len(),
        }
    }
}

/// The Int that a raw segment is read as, unless it is a String. With zeros on, a needless zero in
/// front makes it one.
fn int(config: Config, raw: &[u8]) -> Option<u32> {
    let needless = matches!(raw, [b'0', _, ..]);
    let digits = raw.iter().all(u8::is_ascii_digit);
    if !digits || config.zeros && needless {
        return None;
    }
    value(raw)
}

/// The value of digits, if it is at most 4,294,967,295.
fn value(digits: &[u8]) -> Option<u32> {
    digits.iter().try_fold(0u32, |value, digit| {
        value.checked_mul(10)?.checked_add(u32::from(digit - b'0'))
    })
}

/// A raw segment decoded (READING, 'Decoding').
fn decode(raw: &[u8]) -> Vec<u8> {
    let hex = |byte: u8| char::from(byte).to_digit(16);
    let mut decoded = Vec::new();
    let mut rest = raw;
    while let Some((&first, after)) = rest.split_first() {
        let taken = match (first, after) {
            (b'+', _) => {
                decoded.push(b' ');
                1
            }
            (b'%', [high, low, ..]) if hex(*high).is_some() => {
                match hex(*high).zip(hex(*low)) {
                    Some((high, low)) => decoded.push((high * 16 + low) as u8),
                    None => decoded.extend([b'%', *high, *low]),
                }
                3
            }
            (b'%', [next, ..]) => {
                decoded.extend([b'%', *next]);
                2
            }
            (byte, _) => {
                decoded.push(byte);
                1
            }
        };
        rest = &rest[taken..];
    }
    decoded
}

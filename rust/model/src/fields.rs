//! Field reads, of one name and of many, on the model's tree (READING, 'Field reads' and 'Many
//! names').

use crate::{accept, Config, Key, Kind, Outcome, Reader};

/// What a field read answers, and what it leaves: `reading` has its number, and `list` what the
/// slice of a list read holds after it.
#[derive(Clone, Debug, PartialEq, Eq)]
pub struct FieldOutcome {
    pub reading: Outcome,
    pub offset: u32,
    pub length: u32,
    pub list: Vec<u32>,
}

/// Where a text stands: offset and length.
type Part = (u32, u32);

/// Reads `input`, and the text of its field `name`. `duplicates` says that several values are
/// refused.
pub fn text(
    config: Config,
    duplicates: bool,
    input: &[u8],
    name: &[u8],
    words: &[u32],
    text: &[u8],
) -> FieldOutcome {
    let reader = match accept(config, input, words, text) {
        Ok(reader) => reader,
        Err(refused) => return FieldOutcome::of(refused, Vec::new()),
    };
    let reading = reader.accepted(words.len(), text.len());
    match reader.text_named(name, duplicates) {
        Ok((offset, length)) => FieldOutcome {
            offset,
            length,
            ..FieldOutcome::of(reading, Vec::new())
        },
        Err(number) => FieldOutcome::of(Outcome { number, ..reading }, Vec::new()),
    }
}

/// Reads `input`, and the elements of its field `name` into `list`, which holds anything before.
pub fn list(
    config: Config,
    duplicates: bool,
    input: &[u8],
    name: &[u8],
    words: &[u32],
    text: &[u8],
    list: &[u32],
) -> FieldOutcome {
    let zeros = vec![0; list.len()];
    let reader = match accept(config, input, words, text) {
        Ok(reader) => reader,
        Err(refused) if refused.number <= 3 => return FieldOutcome::of(refused, list.to_vec()),
        Err(refused) => return FieldOutcome::of(refused, zeros),
    };
    let reading = reader.accepted(words.len(), text.len());
    let read = reader
        .field(name)
        .and_then(|node| reader.list_of(node, duplicates, list.len()));
    match read {
        Ok(parts) => {
            let mut left: Vec<u32> = parts.iter().flat_map(|part| [part.0, part.1]).collect();
            left.resize(list.len(), 0);
            FieldOutcome {
                length: parts.len() as u32,
                ..FieldOutcome::of(reading, left)
            }
        }
        Err(number) => FieldOutcome::of(Outcome { number, ..reading }, zeros),
    }
}

/// The words of an answer: number, offset and length.
pub const ANSWER_WORDS: usize = 3;

/// Names end to end, and the end of each.
#[derive(Clone, Copy, Debug)]
pub struct Names<'a> {
    pub bytes: &'a [u8],
    pub ends: &'a [u32],
}

impl<'a> Names<'a> {
    /// The names one by one, where no end is below the one before it or past the bytes.
    fn cut(self) -> Option<Vec<&'a [u8]>> {
        let starts = std::iter::once(&0).chain(self.ends);
        let name = |(&start, &end): (&u32, &u32)| self.bytes.get(start as usize..end as usize);
        starts.zip(self.ends).map(name).collect()
    }
}

/// What a read of many names answers, and what it leaves: `reading` has the call's own number, and
/// `answers` what the answer words hold after it.
#[derive(Clone, Debug, PartialEq, Eq)]
pub struct FieldsOutcome {
    pub reading: Outcome,
    pub answers: Vec<u32>,
}

/// Reads `input`, and the text of the field of each name into `answers`, which holds anything
/// before.
pub fn fields(
    config: Config,
    duplicates: bool,
    input: &[u8],
    names: Names,
    words: &[u32],
    text: &[u8],
    answers: &[u32],
) -> FieldsOutcome {
    let unanswered = |reading| FieldsOutcome {
        reading,
        answers: answers.to_vec(),
    };
    let Some(names) = names.cut() else {
        return unanswered(Outcome::untouched(24, words, text));
    };
    if names.len() > answers.len() / ANSWER_WORDS {
        return unanswered(Outcome::untouched(25, words, text));
    }
    let reader = match accept(config, input, words, text) {
        Ok(reader) => reader,
        Err(refused) => return unanswered(refused),
    };
    let answer = |name| match reader.text_named(name, duplicates) {
        Ok((offset, length)) => [0, offset, length],
        Err(number) => [number, 0, 0],
    };
    let mut left: Vec<u32> = names.into_iter().flat_map(answer).collect();
    left.extend_from_slice(&answers[left.len()..]);
    FieldsOutcome {
        reading: reader.accepted(words.len(), text.len()),
        answers: left,
    }
}

impl FieldOutcome {
    fn of(reading: Outcome, list: Vec<u32>) -> Self {
        FieldOutcome {
            reading,
            offset: 0,
            length: 0,
            list,
        }
    }
}

impl Reader<'_> {
    /// The text of a field, or 16 to 19 or 21.
    fn text_named(&self, name: &[u8], duplicates: bool) -> Result<Part, u32> {
        let node = self.field(name)?;
        self.text_of(node, duplicates)
    }

    /// The field's value, or 16 or 17. A String root is its own field, with the empty name.
    fn field(&self, name: &[u8]) -> Result<usize, u32> {
        match self.nodes[0].kind {
            Kind::Sequence | Kind::Uninitialized => Err(16),
            Kind::Null | Kind::NoValue => Err(17),
            Kind::String { .. } if name.is_empty() => Ok(0),
            Kind::String { .. } => Err(17),
            Kind::Map => {
                let named = |key: &Key| matches!(key, Key::String(bytes) if bytes == name);
                let children = self.nodes[0].children.iter();
                children
                    .copied()
                    .find(|&child| self.nodes[child].key.iter().any(|(key, _)| named(key)))
                    .ok_or(17)
            }
        }
    }

    /// A value as a text, or 18, 19 or 21.
    fn text_of(&self, node: usize, duplicates: bool) -> Result<Part, u32> {
        match self.nodes[node].kind {
            Kind::Null | Kind::NoValue => Ok((0, 0)),
            Kind::String { offset, length } => {
                match std::str::from_utf8(&self.text[offset..offset + length]) {
                    Ok(_) => Ok((offset as u32, length as u32)),
                    Err(_) => Err(21),
                }
            }
            Kind::Sequence => match self.nodes[node].children[..] {
                [_, .., _] if duplicates => Err(19),
                [.., last] => self.text_of(last, duplicates),
                [] => Err(18),
            },
            Kind::Map | Kind::Uninitialized => Err(18),
        }
    }

    /// A value as a list, or 18 or 22, or its first element's number that isn't 0.
    fn list_of(&self, node: usize, duplicates: bool, words: usize) -> Result<Vec<Part>, u32> {
        let children = &self.nodes[node].children;
        let int_of = |&child: &usize| match self.nodes[child].key {
            Some((Key::Int(int), _)) => Some(int),
            _ => None,
        };
        // Each element with its index where it has one.
        let elements: Vec<(usize, Option<u32>)> = match self.nodes[node].kind {
            Kind::Null | Kind::NoValue => Vec::new(),
            Kind::String { .. } => vec![(node, None)],
            Kind::Sequence => children.iter().map(|&child| (child, None)).collect(),
            Kind::Map => {
                let indexed = |child: &usize| Some((*child, Some(int_of(child)?)));
                children
                    .iter()
                    .map(indexed)
                    .collect::<Option<_>>()
                    .ok_or(18u32)?
            }
            Kind::Uninitialized => return Err(18),
        };
        if words < 2 * elements.len() {
            return Err(22);
        }
        let part = |(turn, &(element, index)): (usize, &(usize, Option<u32>))| match index {
            Some(index) if index as usize != turn => Err(20),
            _ => self.text_of(element, duplicates),
        };
        elements.iter().enumerate().map(part).collect()
    }
}

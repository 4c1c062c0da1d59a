//! The writer, on the model's tree (READING, 'The writer'). Each single value gets its pair by
//! itself, from the way that leads to it from the root, and the pairs are sorted afterwards.

use crate::row::WIDTH;
use crate::{accept, int, Config, Key, Kind, Outcome, Reader, MAX_LEN};

/// What a writing answers, and what it leaves: `reading` has its number, and `out` what the output
/// holds after it.
#[derive(Clone, Debug, PartialEq, Eq)]
pub struct WriteOutcome {
    pub reading: Outcome,
    pub length: u32,
    pub out: Vec<u8>,
}

/// Reads `input`, and writes its tree as a ticket into `out`, which holds anything before.
pub fn write(config: Config, input: &[u8], words: &[u32], text: &[u8], out: &[u8]) -> WriteOutcome {
    let unchanged = |reading| WriteOutcome {
        reading,
        length: 0,
        out: out.to_vec(),
    };
    let reader = match accept(config, input, words, text) {
        Ok(reader) => reader,
        Err(refused) => return unchanged(refused),
    };
    let reading = reader.accepted(words.len(), text.len());
    let ticket = reader.ticket();
    if ticket.len() > MAX_LEN || ticket.len() > out.len() {
        return unchanged(Outcome {
            number: 26,
            ..reading
        });
    }
    WriteOutcome {
        reading,
        length: ticket.len() as u32,
        out: [&ticket, &out[ticket.len()..]].concat(),
    }
}

/// The ticket that is written of an accepted input's tree, however long it is.
pub fn written(config: Config, input: &[u8]) -> Option<Vec<u8>> {
    let (words, text) = (vec![0; WIDTH * (input.len() + 1)], vec![0; input.len()]);
    let reader = accept(config, input, &words, &text).ok()?;
    Some(reader.ticket())
}

/// Where a value stands among its parent's children, in the order of writing: the empty key comes
/// last.
type Turn = (bool, usize);

impl Reader<'_> {
    fn ticket(&self) -> Vec<u8> {
        if self.nodes[0].kind == Kind::Uninitialized {
            return b"&".to_vec();
        }
        let parents = self.parents();
        let single = |number: &usize| match self.nodes[*number].kind {
            Kind::Uninitialized => unreachable!("nothing below the root is open in the end"),
            Kind::Map | Kind::Sequence => false,
            Kind::String { .. } | Kind::Null | Kind::NoValue => true,
        };
        let mut pairs: Vec<(Vec<Turn>, Vec<u8>)> = (0..self.nodes.len())
            .filter(single)
            .map(|number| {
                let (way, turns) = way(&parents, number);
                (turns, self.pair(&way, number))
            })
            .collect();
        pairs.sort();
        let pairs: Vec<Vec<u8>> = pairs.into_iter().map(|(_, pair)| pair).collect();
        pairs.join(&b'&')
    }

    /// Each value's parent, and where the value stands below it. The root has none.
    fn parents(&self) -> Vec<Option<(usize, Turn)>> {
        let mut parents = vec![None; self.nodes.len()];
        for (parent, node) in self.nodes.iter().enumerate() {
            for (place, &child) in node.children.iter().enumerate() {
                parents[child] = Some((parent, (self.has_empty_key(child), place)));
            }
        }
        parents
    }

    /// The pair of a single value, where `way` has the values that lead to it, level 1 first and
    /// itself last.
    fn pair(&self, way: &[usize], number: usize) -> Vec<u8> {
        let mut pair = Vec::new();
        for (above, &step) in way.iter().enumerate() {
            match &self.nodes[step].key {
                Some((key, _)) => pair.extend(self.key(key, above + 1)),
                None if self.repeats(&way[..above]) => {}
                None => pair.extend(b"[]"),
            }
        }
        match self.nodes[number].kind {
            Kind::Null => pair.push(b'='),
            Kind::String { offset, length } => {
                pair.push(b'=');
                pair.extend(escaped(&self.text[offset..offset + length]));
            }
            _ => {}
        }
        pair
    }

    /// A key as it is written at its listed level.
    fn key(&self, key: &Key, level: usize) -> Vec<u8> {
        let bare = match key {
            Key::Int(int) => int.to_string().into_bytes(),
            Key::String(bytes) => match &bytes[..] {
                [] => return Vec::new(),
                [b'[', rest @ ..] if self.is_depth(level) => {
                    return [b"[", &escaped(rest)[..]].concat()
                }
                // as it is, it would be read as an Int
                [digit, rest @ ..] if int(self.config, bytes).is_some() => {
                    [hex(*digit), escaped(rest)].concat()
                }
                _ => escaped(bytes),
            },
        };
        match level {
            1 => bare,
            _ => [b"[", &bare[..], b"]"].concat(),
        }
    }

    /// Whether the elements of the sequence at the end of a way repeat its key.
    fn repeats(&self, way: &[usize]) -> bool {
        let under = |&sequence: &usize| match self.nodes[sequence].key {
            Some(_) => self.has_empty_key(sequence) || self.is_depth(way.len()),
            None => false,
        };
        self.config.depth == 0 || way.last().is_some_and(under)
    }

    fn has_empty_key(&self, number: usize) -> bool {
        matches!(&self.nodes[number].key, Some((Key::String(bytes), _)) if bytes.is_empty())
    }

    /// Whether a key that isn't empty is at the depth if it has this listed level.
    fn is_depth(&self, level: usize) -> bool {
        level == self.config.depth as usize + 2
    }
}

/// The values that lead from the root to a value, the root left out, and the turn of each.
fn way(parents: &[Option<(usize, Turn)>], number: usize) -> (Vec<usize>, Vec<Turn>) {
    let up = |&(_, parent): &(usize, Option<(usize, Turn)>)| {
        parent.map(|(parent, _)| (parent, parents[parent]))
    };
    let steps = std::iter::successors(Some((number, parents[number])), up);
    let (mut way, mut turns): (Vec<usize>, Vec<Turn>) = steps
        .filter_map(|(step, parent)| Some((step, parent?.1)))
        .unzip();
    way.reverse();
    turns.reverse();
    (way, turns)
}

fn escaped(bytes: &[u8]) -> Vec<u8> {
    let one = |&byte: &u8| match byte {
        b' ' => vec![b'+'],
        b'%' | b'+' | b'&' | b'=' | b'[' | b']' => hex(byte),
        other => vec![other],
    };
    bytes.iter().flat_map(one).collect()
}

/// A byte as an escape.
fn hex(byte: u8) -> Vec<u8> {
    format!("%{byte:02x}").into_bytes()
}

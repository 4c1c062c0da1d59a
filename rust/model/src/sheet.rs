//! The proof sheet, on the model's tree (READING, 'The sheet').

use crate::{accept, Config, Key, Kind, Node, Outcome, Reader};

/// The bytes of a line, its newline among them.
pub const SHEET_LINE: usize = 73;

/// What a sheet answers, and what it leaves: `reading` has its number, and `page` what the page
/// holds after it.
#[derive(Clone, Debug, PartialEq, Eq)]
pub struct SheetOutcome {
    pub reading: Outcome,
    pub page: Vec<u8>,
}

/// Reads `input`, and prints its tree on `page`, which holds anything before.
pub fn sheet(
    config: Config,
    input: &[u8],
    words: &[u32],
    text: &[u8],
    page: &[u8],
) -> SheetOutcome {
    let unchanged = |reading| SheetOutcome {
        reading,
        page: page.to_vec(),
    };
    let reader = match accept(config, input, words, text) {
        Ok(reader) => reader,
        Err(refused) => return unchanged(refused),
    };
    let reading = reader.accepted(words.len(), text.len());
    if page.len() < SHEET_LINE * reader.nodes.len() {
        return unchanged(Outcome {
            number: 23,
            ..reading
        });
    }
    let mut lines = String::new();
    reader.print(0, 0, &mut lines);
    let past = &page[lines.len()..];
    SheetOutcome {
        reading,
        page: [lines.as_bytes(), past].concat(),
    }
}

impl Reader<'_> {
    /// The lines of a value and of all below it. Children stand in their order.
    fn print(&self, number: usize, level: usize, lines: &mut String) {
        let node = &self.nodes[number];
        *lines += &self.line(node, level);
        for &child in &node.children {
            self.print(child, level + 1, lines);
        }
    }

    /// The columns of a line: 1 to 3, 5 to 9, 11 to 14, 16 to 40 and 42 to 72.
    fn line(&self, node: &Node, level: usize) -> String {
        let key = match &node.key {
            None => String::new(),
            Some((Key::Int(int), _)) => int.to_string(),
            Some((Key::String(bytes), _)) => shown(bytes, 25),
        };
        let (length, text) = match node.kind {
            Kind::String { offset, length } => (
                length.to_string(),
                shown(&self.text[offset..offset + length], 31),
            ),
            _ => (String::new(), String::new()),
        };
        let kind = name(node.kind);
        format!("{level:>3} {length:>5} {kind:<4.4} {key:<25} {text:<31}\n")
    }
}

/// A kind as the listing has it.
fn name(kind: Kind) -> &'static str {
    match kind {
        Kind::Map => "map",
        Kind::Sequence => "sequence",
        Kind::String { .. } => "string",
        Kind::Null => "null",
        Kind::NoValue => "novalue",
        Kind::Uninitialized => "uninit",
    }
}

/// Bytes in so many columns: one outside 33 to 126 is a full stop, and too many end in `>`.
fn shown(bytes: &[u8], columns: usize) -> String {
    let character = |&byte| match byte {
        33..=126 => char::from(byte),
        _ => '.',
    };
    if bytes.len() <= columns {
        return bytes.iter().map(character).collect();
    }
    let fit = bytes[..columns - 1].iter().map(character);
    fit.chain(['>']).collect()
}

//! The calls into the crate's own files, and its answers as plain types.

use crate::exposed::{self, parse::ParsedValue};
pub use crate::fields::{list, struct_list, struct_text, text};
use crate::{Config, Error, Key, Tree};

/// Why there is nothing to compare with; `None`, since the crate's files were found.
pub const MISSING: Option<&str> = None;

/// The crate's decoding of a raw segment.
pub fn decode(raw: &[u8]) -> Vec<u8> {
    exposed::decode::decode(raw).into_owned()
}

/// The crate's reading of a whole query string: its tree, or the refusal's number, 4 to 13 as in
/// READING, 'Refusals', and its place.
pub fn parse(input: &[u8], depth: usize, form: bool) -> Result<Tree, (u32, usize)> {
    let config = Config::new().max_depth(depth).use_form_encoding(form);
    match exposed::parse::parse(input, config) {
        Ok(value) => Ok(tree(&value)),
        Err(Error::Parse(wording, place)) => Err((number(&wording), place)),
        Err(other) => unreachable!("parse refuses with Error::Parse only, and not with {other}"),
    }
}

/// Whether the crate accepts the query string: its reading alone, for timing it.
pub fn accepts(input: &[u8], depth: usize, form: bool) -> bool {
    let config = Config::new().max_depth(depth).use_form_encoding(form);
    exposed::parse::parse(input, config).is_ok()
}

fn tree(value: &ParsedValue) -> Tree {
    match value {
        ParsedValue::Map(map) => Tree::Map(
            map.iter()
                .map(|(name, value)| (key(name), tree(value)))
                .collect(),
        ),
        ParsedValue::Sequence(elements) => Tree::Sequence(elements.iter().map(tree).collect()),
        ParsedValue::String(bytes) => Tree::String(bytes.to_vec()),
        ParsedValue::Null => Tree::Null,
        ParsedValue::NoValue => Tree::NoValue,
        ParsedValue::Uninitialized => Tree::Uninitialized,
    }
}

fn key(key: &exposed::parse::Key) -> Key {
    match key {
        exposed::parse::Key::Int(value) => Key::Int(*value),
        exposed::parse::Key::String(bytes) => Key::String(bytes.to_vec()),
    }
}

/// How the crate words each refusal that has a number, up to where a wording names parts of the
/// input.
const REFUSALS: [(u32, &str); 15] = [
    (4, "query string ended before expected"),
    (5, "unexpected end of input while parsing nested key"),
    (6, "invalid input: the key `"),
    (
        7,
        "invalid input: the same key is used for both a value and a sequence",
    ),
    (
        8,
        "invalid input: the same key is used for both a sequence and a nested map",
    ),
    (
        9,
        "invalid input: the same key is used for both a value and a nested map",
    ),
    (
        10,
        "invalid input: the same key is used for both a unit value and a nested map",
    ),
    (11, "unexpected character `"),
    (
        12,
        "unsupported: unable to parse nested maps of unindexed sequences",
    ),
    (13, "unsupported: cannot mix unindexed sequences"),
    (18, "invalid type: "),
    (19, "multiple values provided for non-sequence field"),
    (20, "missing index, expected: "),
    (21, "invalid utf-8 sequence"),
    (21, "incomplete utf-8 byte sequence"),
];

/// The number of a refusal (READING, 'Refusals').
pub fn number(wording: &str) -> u32 {
    let worded = |(_, start): &&(u32, &str)| wording.starts_with(start);
    match REFUSALS.iter().find(worded) {
        Some((number, _)) => *number,
        None => unreachable!("there is no number for the refusal '{wording}'"),
    }
}

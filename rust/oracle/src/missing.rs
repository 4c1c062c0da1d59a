//! What stands for calls.rs where the crate's files weren't found.

use crate::Tree;

/// Why there is nothing to compare with.
pub const MISSING: Option<&str> = Some(concat!(
    "the sources of serde_qs 1.1.3 are not in ",
    env!("SERDE_QS_LOOKED_IN"),
    "; SERDE_QS_SRC may name the folder that has its src",
));

/// Panics: see [`MISSING`].
pub fn decode(_raw: &[u8]) -> Vec<u8> {
    panic!("{}", MISSING.unwrap_or_default())
}

/// Panics: see [`MISSING`].
pub fn parse(_input: &[u8], _depth: usize, _form: bool) -> Result<Tree, (u32, usize)> {
    panic!("{}", MISSING.unwrap_or_default())
}

/// Panics: see [`MISSING`].
pub fn accepts(_input: &[u8], _depth: usize, _form: bool) -> bool {
    panic!("{}", MISSING.unwrap_or_default())
}

/// Panics: see [`MISSING`].
pub fn text(
    _input: &[u8],
    _depth: usize,
    _form: bool,
    _duplicates: bool,
    _name: &str,
) -> Result<Vec<u8>, u32> {
    panic!("{}", MISSING.unwrap_or_default())
}

/// Panics: see [`MISSING`].
pub fn list(
    _input: &[u8],
    _depth: usize,
    _form: bool,
    _duplicates: bool,
    _name: &str,
) -> Result<Vec<Vec<u8>>, u32> {
    panic!("{}", MISSING.unwrap_or_default())
}

/// Panics: see [`MISSING`].
pub fn struct_text(_input: &[u8], _name: &str) -> Result<Vec<u8>, String> {
    panic!("{}", MISSING.unwrap_or_default())
}

/// Panics: see [`MISSING`].
pub fn struct_list(_input: &[u8], _name: &str) -> Result<Vec<Vec<u8>>, String> {
    panic!("{}", MISSING.unwrap_or_default())
}

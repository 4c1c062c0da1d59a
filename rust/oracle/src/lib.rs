//! The reader of serde_qs 1.1.3 itself, called through plain types.
//!
//! `build.rs` finds the crate's own files, and they are compiled here unchanged: with the ordered
//! map, without `indexmap`, `debug_parsed` and `default_to_form_encoding`. Where they weren't
//! found, [`MISSING`] says so, and the calls panic.

// The crate's modules. They name each other and these types by `crate::`, so all stand at the
// root, as in the crate's own lib.rs.
#[cfg(serde_qs_sources)]
include!(concat!(env!("OUT_DIR"), "/modules.rs"));
#[cfg(serde_qs_sources)]
mod fields;
#[cfg(serde_qs_sources)]
mod serializer;
#[cfg(serde_qs_sources)]
use {
    config::Config, config::DuplicateKeyBehavior, de::QsDeserializer as Deserializer, error::Error,
    serializer::Serializer,
};

#[cfg_attr(not(serde_qs_sources), path = "missing.rs")]
mod calls;
pub use calls::{accepts, decode, list, parse, struct_list, struct_text, text, MISSING};

/// A key of a map.
#[derive(Clone, Debug, PartialEq, Eq)]
pub enum Key {
    Int(u32),
    String(Vec<u8>),
}

/// What a query string means, the crate's `ParsedValue`. A map's entries stand in key order.
#[derive(Clone, Debug, PartialEq, Eq)]
pub enum Tree {
    Map(Vec<(Key, Tree)>),
    Sequence(Vec<Tree>),
    String(Vec<u8>),
    Null,
    NoValue,
    Uninitialized,
}

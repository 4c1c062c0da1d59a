//! The words of a record (READING, 'Records'), for the model alone: the tests hold them against
//! those of the library.

/// A record's width in words.
pub const WIDTH: usize = 8;

// The words of a record, by their numbers.
pub const KIND: usize = 0;
pub const KEY_KIND: usize = 1;
pub const KEY: usize = 2;
pub const KEY_LEN: usize = 3;
pub const TEXT: usize = 4;
pub const TEXT_LEN: usize = 5;
pub const CHILD: usize = 6;
pub const NEXT: usize = 7;

// The kinds of a value.
pub const UNINITIALIZED: u32 = 0;
pub const MAP: u32 = 1;
pub const SEQUENCE: u32 = 2;
pub const STRING: u32 = 3;
pub const NULL: u32 = 4;
pub const NO_VALUE: u32 = 5;

// The kinds of a key.
pub const NO_KEY: u32 = 0;
pub const INT_KEY: u32 = 1;
pub const STRING_KEY: u32 = 2;

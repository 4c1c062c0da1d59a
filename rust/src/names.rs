//! Names of fields, laid out for a call that reads many.

#[cfg(feature = "alloc")]
use crate::ANSWER_WORDS;
#[cfg(feature = "alloc")]
use alloc::{vec, vec::Vec};

/// Names laid end to end. Name `i` is the part of `bytes` up to `ends[i]` from the end before it,
/// the first from 0.
///
/// Equal ends are an empty name, and the last end may be below the number of the bytes. An end
/// that is below the one before it, or past the bytes, is refused by the call.
#[derive(Clone, Copy, Debug)]
pub struct Names<'a> {
    /// The bytes of all the names.
    pub bytes: &'a [u8],
    /// Where each name ends in them.
    pub ends: &'a [u32],
}

/// Names of one's own, laid out once for many tickets.
///
/// ```
/// use qs::NamesBuf;
/// let names = NamesBuf::of(&["w", "", "page"]);
/// assert_eq!((names.lend().bytes, names.lend().ends), (&b"wpage"[..], &[1, 1, 5][..]));
/// ```
#[cfg(feature = "alloc")]
#[derive(Clone, Debug)]
pub struct NamesBuf {
    bytes: Vec<u8>,
    ends: Vec<u32>,
}

#[cfg(feature = "alloc")]
impl NamesBuf {
    /// Lays the names out.
    ///
    /// # Panics
    ///
    /// Where the names have 4 GiB or more together, which ends of 32 bits don't reach.
    pub fn of<N: AsRef<[u8]>>(names: &[N]) -> Self {
        let names: Vec<&[u8]> = names.iter().map(AsRef::as_ref).collect();
        let mut end = 0;
        let ends = names.iter().map(|name| {
            end += name.len();
            u32::try_from(end).expect("names of 4 GiB or more have no ends of 32 bits")
        });
        // Before the names are copied, so that too many are not.
        let ends = ends.collect();
        let bytes = names.concat();
        NamesBuf { bytes, ends }
    }

    /// Lends them. Calls that take `impl Into<Names>` take `&names` as well.
    pub fn lend(&self) -> Names<'_> {
        Names {
            bytes: &self.bytes,
            ends: &self.ends,
        }
    }

    /// Words to lend for the answers to these names, [`ANSWER_WORDS`] each.
    ///
    /// ```
    /// assert_eq!(qs::NamesBuf::of(&["w", "h"]).answers().len(), 2 * qs::ANSWER_WORDS);
    /// ```
    pub fn answers(&self) -> Vec<u32> {
        vec![0; ANSWER_WORDS * self.ends.len()]
    }
}

#[cfg(feature = "alloc")]
impl<'a> From<&'a NamesBuf> for Names<'a> {
    fn from(names: &'a NamesBuf) -> Self {
        names.lend()
    }
}

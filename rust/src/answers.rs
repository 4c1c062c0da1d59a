//! What the calls of a ticket answer where they aren't refused.

use crate::{row, Refusal, Tree, ANSWER_WORDS, ELEMENT_WORDS};
use core::fmt;
use core::iter::FusedIterator;
use core::slice::ChunksExact;

/// Bytes of the text that a field read answered; the library has tested that they are UTF-8.
pub(crate) fn answered(text: &[u8], offset: u32, length: u32) -> &str {
    let bytes = row::part(text, offset, length).expect("an answer lies in the text");
    core::str::from_utf8(bytes).expect("an answered text is UTF-8")
}

/// An accepted reading: the tree of a ticket, in the records and text that were lent.
///
/// `{:?}` shows the tree.
///
/// ```
/// use qs::{row, Buffers, Ticket, RECORD_WORDS};
/// let mut buffers = Buffers::for_len(16);
/// let reading = Ticket::new("a=1").parse(&mut buffers)?;
/// assert_eq!(reading.records().len(), 2 * RECORD_WORDS);
/// assert_eq!(reading.records()[row::KIND], row::MAP);
/// assert_eq!(reading.text(), b"a1");
/// assert_eq!(reading.tree().to_string(), "map\n  \"a\": \"1\"");
/// assert_eq!(format!("{reading:?}"), r#"{"a": "1"}"#);
/// # Ok::<(), qs::Refused>(())
/// ```
#[derive(Clone, Copy)]
pub struct Reading<'a> {
    pub(crate) records: &'a [u32],
    pub(crate) text: &'a [u8],
}

impl<'a> Reading<'a> {
    /// The tree, from its root on.
    pub fn tree(self) -> Tree<'a> {
        Tree::of(self.records, self.text).expect("an accepted reading has a root")
    }

    /// The words of the records that are used, laid out as [`row`] has it.
    pub fn records(self) -> &'a [u32] {
        self.records
    }

    /// The bytes of the text that are used.
    pub fn text(self) -> &'a [u8] {
        self.text
    }
}

impl fmt::Debug for Reading<'_> {
    fn fmt(&self, f: &mut fmt::Formatter) -> fmt::Result {
        fmt::Debug::fmt(&self.tree(), f)
    }
}

/// The texts of a list, in their order.
#[derive(Clone)]
pub struct Texts<'a> {
    text: &'a [u8],
    elements: ChunksExact<'a, u32>,
}

impl<'a> Texts<'a> {
    /// Of words that hold the elements and nothing else.
    pub(crate) fn new(text: &'a [u8], elements: &'a [u32]) -> Self {
        let elements = elements.chunks_exact(ELEMENT_WORDS);
        Texts { text, elements }
    }

    fn element(&self, words: &[u32]) -> &'a str {
        answered(self.text, words[0], words[1])
    }
}

impl<'a> Iterator for Texts<'a> {
    type Item = &'a str;

    fn next(&mut self) -> Option<&'a str> {
        let words = self.elements.next()?;
        Some(self.element(words))
    }

    fn size_hint(&self) -> (usize, Option<usize>) {
        self.elements.size_hint()
    }
}

impl DoubleEndedIterator for Texts<'_> {
    fn next_back(&mut self) -> Option<Self::Item> {
        let words = self.elements.next_back()?;
        Some(self.element(words))
    }
}

impl ExactSizeIterator for Texts<'_> {}

impl FusedIterator for Texts<'_> {}

impl fmt::Debug for Texts<'_> {
    fn fmt(&self, f: &mut fmt::Formatter) -> fmt::Result {
        f.debug_list().entries(self.clone()).finish()
    }
}

/// The answers to many names, in the order of the names: each is the field's text, or why it has
/// none.
#[derive(Clone)]
pub struct Fields<'a> {
    reading: Reading<'a>,
    answers: ChunksExact<'a, u32>,
}

impl<'a> Fields<'a> {
    /// Of words that hold the answers and nothing else.
    pub(crate) fn new(reading: Reading<'a>, answers: &'a [u32]) -> Self {
        let answers = answers.chunks_exact(ANSWER_WORDS);
        Fields { reading, answers }
    }

    /// The reading that all of them were read from.
    ///
    /// ```
    /// use qs::{Buffers, NamesBuf, Ticket};
    /// let names = NamesBuf::of(&["a"]);
    /// let (mut buffers, mut answers) = (Buffers::for_len(8), names.answers());
    /// let fields = Ticket::new("a=1&7=x").fields(&names, &mut buffers, &mut answers)?;
    /// assert_eq!(format!("{:?}", fields.reading()), r#"{7: "x", "a": "1"}"#);
    /// # Ok::<(), qs::Refused>(())
    /// ```
    pub fn reading(&self) -> Reading<'a> {
        self.reading
    }

    fn answer(&self, words: &[u32]) -> Result<&'a str, Refusal> {
        match words[0] {
            crate::refusal::ACCEPTED => Ok(answered(self.reading.text, words[1], words[2])),
            number => Err(Refusal::answered(number)),
        }
    }
}

impl<'a> Iterator for Fields<'a> {
    type Item = Result<&'a str, Refusal>;

    fn next(&mut self) -> Option<Self::Item> {
        let words = self.answers.next()?;
        Some(self.answer(words))
    }

    fn size_hint(&self) -> (usize, Option<usize>) {
        self.answers.size_hint()
    }
}

impl DoubleEndedIterator for Fields<'_> {
    fn next_back(&mut self) -> Option<Self::Item> {
        let words = self.answers.next_back()?;
        Some(self.answer(words))
    }
}

impl ExactSizeIterator for Fields<'_> {}

impl FusedIterator for Fields<'_> {}

impl fmt::Debug for Fields<'_> {
    fn fmt(&self, f: &mut fmt::Formatter) -> fmt::Result {
        f.debug_list().entries(self.clone()).finish()
    }
}

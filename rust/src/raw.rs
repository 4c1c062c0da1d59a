//! Each export that reads a ticket, once: slices are handed over whole, and the answers are those
//! that C gets.
//!
//! This is for who wants the number, the place and the counts exactly as C has them; the tests
//! compare these with the model, word for word. The calls of [`Ticket`] stand on these and answer
//! a `Result`.

use crate::{c, Lent, Names, Ticket};

/// What a reading answers.
#[repr(C)]
#[derive(Clone, Copy, Debug, PartialEq, Eq, Hash)]
pub struct Reading {
    /// 0 where the reading was accepted, else the number of its [`refusal`](crate::refusal), 1 to
    /// 15. Of a [`sheet`] it may also be 23, and of a [`write`](write()) 26, and then the reading
    /// itself was accepted; of [`fields`] 24 or 25, and then nothing was read.
    pub number: u32,
    /// Where a refusal was met: the bytes taken so far, the end counted as one; 0 where the
    /// reading was accepted, and under 1 to 3 and 16 to 26.
    pub place: u32,
    /// The records that are used; 0 where the reading was refused, by 1 to 15, or there was none.
    pub records: u32,
    /// The bytes of text that are used; 0 where `records` is.
    pub bytes: u32,
}

/// What a field read answers: the answer of the reading, and the field. In C the reading's four
/// numbers stand flat before the field's two.
#[repr(C)]
#[derive(Clone, Copy, Debug, PartialEq, Eq, Hash)]
pub struct FieldRead {
    /// Its number is 0 where the field was read; 1 to 15 where the reading was refused, 16 to 22
    /// where the field was.
    pub reading: Reading,
    /// Where the field's bytes start in the text; 0 for a list.
    pub offset: u32,
    /// The number of the field's bytes, or of a list's elements.
    pub length: u32,
}

/// What a writing answers: the answer of the reading, and the written ticket's length. In C the
/// reading's four numbers stand flat before it.
#[repr(C)]
#[derive(Clone, Copy, Debug, PartialEq, Eq, Hash)]
pub struct Written {
    /// Its number is 0 where the ticket was written; 1 to 15 where the reading was refused, 26
    /// where the writing was.
    pub reading: Reading,
    /// The bytes of the written ticket; 0 under every number but 0.
    pub length: u32,
}

/// `qs_parse`: reads a ticket into lent records and text.
///
/// What an accepted reading doesn't use of them is zero. Refusals 1 to 3 leave both as they were,
/// and every later one zeroes them.
///
/// ```
/// use qs::{raw, Buffers, Ticket};
/// let mut buffers = Buffers::for_len(3);
/// let reading = raw::parse(Ticket::new("a=1"), buffers.lend());
/// assert_eq!((reading.number, reading.records, reading.bytes), (0, 2, 2));
/// assert_eq!(&buffers.lend().text[..2], b"a1");
/// let reading = raw::parse(Ticket::new("a["), buffers.lend());
/// assert_eq!((reading.number, reading.place), (4, 3));
/// ```
pub fn parse(ticket: Ticket, lent: Lent) -> Reading {
    let Ticket { input, config, .. } = ticket;
    let Lent { records, text } = lent;
    // SAFETY: the slices live through the call, and `records` and `text` are lent to it alone.
    unsafe {
        c::qs_parse(
            config.depth,
            config.form.into(),
            config.zeros.into(),
            input.as_ptr(),
            input.len(),
            records.as_mut_ptr(),
            records.len(),
            text.as_mut_ptr(),
            text.len(),
        )
    }
}

/// `qs_text`: reads a ticket as [`parse`] does, and then the text of the root's field `name`. It
/// leaves records and text as `parse` does.
///
/// ```
/// use qs::{raw, refusal, row, Buffers, Ticket};
/// let mut buffers = Buffers::for_len(16);
/// let read = raw::text(Ticket::new("w=fog&w=d%C3%A9j"), b"w", buffers.lend());
/// assert_eq!((read.reading.number, read.reading.records, read.reading.bytes), (0, 4, 8));
/// let text = buffers.lend().text;
/// assert_eq!(row::part(text, read.offset, read.length), Some("déj".as_bytes()));
/// let read = raw::text(Ticket::new("1=x"), b"1", buffers.lend());
/// assert_eq!(read.reading.number, refusal::NO_SUCH_FIELD);
/// ```
pub fn text(ticket: Ticket, name: &[u8], lent: Lent) -> FieldRead {
    let (config, input) = (ticket.config, ticket.input);
    let Lent { records, text } = lent;
    // SAFETY: the slices live through the call, and `records` and `text` are lent to it alone.
    unsafe {
        c::qs_text(
            config.depth,
            config.form.into(),
            config.zeros.into(),
            ticket.duplicates.flag(),
            input.as_ptr(),
            input.len(),
            name.as_ptr(),
            name.len(),
            records.as_mut_ptr(),
            records.len(),
            text.as_mut_ptr(),
            text.len(),
        )
    }
}

/// `qs_list`: reads a ticket as [`parse`] does, and then the root's field `name` as a list of
/// texts.
///
/// [`ELEMENT_WORDS`](crate::ELEMENT_WORDS) words of `list` for each element get its offset and
/// length in the text, and the rest is zero. Refusals 1 to 3 leave it as it was, and every later
/// one zeroes it.
///
/// ```
/// use qs::{raw, refusal, Buffers, Ticket};
/// let ticket = Ticket::new("h[]=10&h[]=9");
/// let (mut buffers, mut list) = (Buffers::for_len(12), [7; 6]);
/// let read = raw::list(ticket, b"h", buffers.lend(), &mut list);
/// assert_eq!((read.reading.number, read.length), (0, 2));
/// assert_eq!((list, &buffers.lend().text[..4]), ([1, 2, 3, 1, 0, 0], &b"h109"[..]));
/// let read = raw::list(ticket, b"h", buffers.lend(), &mut list[..3]);
/// assert_eq!((read.reading.number, read.length), (refusal::SHORT_SLICE, 0));
/// ```
pub fn list(ticket: Ticket, name: &[u8], lent: Lent, list: &mut [u32]) -> FieldRead {
    let (config, input) = (ticket.config, ticket.input);
    let Lent { records, text } = lent;
    // SAFETY: the slices live through the call, and `records`, `text` and `list` are lent to it
    // alone.
    unsafe {
        c::qs_list(
            config.depth,
            config.form.into(),
            config.zeros.into(),
            ticket.duplicates.flag(),
            input.as_ptr(),
            input.len(),
            name.as_ptr(),
            name.len(),
            records.as_mut_ptr(),
            records.len(),
            text.as_mut_ptr(),
            text.len(),
            list.as_mut_ptr(),
            list.len(),
        )
    }
}

/// `qs_fields`: reads a ticket once, as [`parse`] does, and then the root's field of each name, as
/// [`text`] does. It leaves records and text as `parse` does.
///
/// Each name in turn gets [`ANSWER_WORDS`](crate::ANSWER_WORDS) words of `answers`: number, offset
/// and length as `text` answers them, a number from 16 on with two zeros. The call's own number is
/// 0 once the reading is accepted, whatever the answers are. What `answers` has past the last one
/// is untouched, and all of it is where that number isn't 0. An end below the one before it or
/// past the names' bytes is refused (24), then too few words for the answers (25), both before
/// anything is read, with every buffer as it was.
///
/// ```
/// use qs::{raw, refusal, Buffers, Names, Ticket};
/// let ticket = Ticket::new("h=9&w=fog");
/// let (mut buffers, mut answers) = (Buffers::for_len(9), [7; 8]);
/// let names = Names { bytes: b"wabsent", ends: &[1, 7] };
/// let reading = raw::fields(ticket, names, buffers.lend(), &mut answers);
/// assert_eq!((reading.number, reading.records, reading.bytes), (0, 3, 6));
/// assert_eq!(answers, [0, 3, 3, refusal::NO_SUCH_FIELD, 0, 0, 7, 7]);
/// assert_eq!(&buffers.lend().text[..6], b"h9wfog");
/// let reading = raw::fields(ticket, names, buffers.lend(), &mut answers[..5]);
/// assert_eq!((reading.number, reading.records), (refusal::SHORT_ANSWERS, 0));
/// let names = Names { ends: &[7, 1], ..names };
/// let reading = raw::fields(ticket, names, buffers.lend(), &mut answers);
/// assert_eq!((reading.number, reading.records), (refusal::WRONG_ENDS, 0));
/// ```
pub fn fields(ticket: Ticket, names: Names, lent: Lent, answers: &mut [u32]) -> Reading {
    let (config, input) = (ticket.config, ticket.input);
    let Lent { records, text } = lent;
    // SAFETY: the slices live through the call, and `records`, `text` and `answers` are lent to it
    // alone.
    unsafe {
        c::qs_fields(
            config.depth,
            config.form.into(),
            config.zeros.into(),
            ticket.duplicates.flag(),
            input.as_ptr(),
            input.len(),
            names.bytes.as_ptr(),
            names.bytes.len(),
            names.ends.as_ptr(),
            names.ends.len(),
            records.as_mut_ptr(),
            records.len(),
            text.as_mut_ptr(),
            text.len(),
            answers.as_mut_ptr(),
            answers.len(),
        )
    }
}

/// `qs_sheet`: reads a ticket as [`parse`] does, and then writes the sheet of its tree into `page`:
/// a line of [`SHEET_LINE`](crate::SHEET_LINE) bytes for each record used.
///
/// What `page` has past the last line is untouched, and all of it is where the number isn't 0. A
/// page of less than a line for each record is refused (23) once the reading is accepted; records
/// and text are left as the reading left them.
///
/// ```
/// use qs::{raw, refusal, Buffers, Ticket, SHEET_LINE};
/// let ticket = Ticket::new("a=1");
/// let (mut buffers, mut page) = (Buffers::for_len(3), [b'x'; 2 * SHEET_LINE + 1]);
/// let reading = raw::sheet(ticket, buffers.lend(), &mut page);
/// assert_eq!((reading.number, reading.records, reading.bytes), (0, 2, 2));
/// assert_eq!(page[2 * SHEET_LINE - 1..], *b"\nx");
/// let reading = raw::sheet(ticket, buffers.lend(), &mut page[..2 * SHEET_LINE - 1]);
/// assert_eq!((reading.number, reading.records), (refusal::SHORT_PAGE, 2));
/// ```
pub fn sheet(ticket: Ticket, lent: Lent, page: &mut [u8]) -> Reading {
    let Ticket { input, config, .. } = ticket;
    let Lent { records, text } = lent;
    // SAFETY: the slices live through the call, and `records`, `text` and `page` are lent to it
    // alone.
    unsafe {
        c::qs_sheet(
            config.depth,
            config.form.into(),
            config.zeros.into(),
            input.as_ptr(),
            input.len(),
            records.as_mut_ptr(),
            records.len(),
            text.as_mut_ptr(),
            text.len(),
            page.as_mut_ptr(),
            page.len(),
        )
    }
}

/// `qs_write`: reads a ticket as [`parse`] does, and then writes its tree into `out` as a ticket
/// again.
///
/// What `out` has past the written bytes is untouched, and all of it is where the number isn't 0.
/// A ticket of more bytes than `out` holds, or than [`MAX_LEN`](crate::MAX_LEN), is refused (26)
/// once the reading is accepted; records and text are left as the reading left them.
///
/// ```
/// use qs::{raw, refusal, Buffers, Ticket};
/// let ticket = Ticket::new("b=%2B&a=1&a=2");
/// let (mut buffers, mut out) = (Buffers::for_len(13), [b'x'; 18]);
/// let written = raw::write(ticket, buffers.lend(), &mut out);
/// assert_eq!((written.reading.number, written.reading.records, written.length), (0, 5, 17));
/// assert_eq!(&out, b"a[]=1&a[]=2&b=%2bx");
/// let written = raw::write(ticket, buffers.lend(), &mut out[..16]);
/// assert_eq!((written.reading.number, written.reading.records), (refusal::SHORT_OUTPUT, 5));
/// ```
pub fn write(ticket: Ticket, lent: Lent, out: &mut [u8]) -> Written {
    let Ticket { input, config, .. } = ticket;
    let Lent { records, text } = lent;
    // SAFETY: the slices live through the call, and `records`, `text` and `out` are lent to it
    // alone.
    unsafe {
        c::qs_write(
            config.depth,
            config.form.into(),
            config.zeros.into(),
            input.as_ptr(),
            input.len(),
            records.as_mut_ptr(),
            records.len(),
            text.as_mut_ptr(),
            text.len(),
            out.as_mut_ptr(),
            out.len(),
        )
    }
}

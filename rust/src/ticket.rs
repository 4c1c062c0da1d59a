//! A ticket and its calls, each of which reads it from its start into lent records and text.

use crate::answers::{answered, Fields, Reading, Texts};
use crate::refusal::{self, Refusal, Refused};
use crate::{raw, Config, DuplicateKeyBehavior, Lent, Names};
use crate::{ANSWER_WORDS, ELEMENT_WORDS, RECORD_WORDS, SHEET_LINE};

/// A query string, and how it is read.
///
/// ```
/// use qs::{Buffers, Config, DuplicateKeyBehavior, Ticket};
/// let mut buffers = Buffers::for_len(16);
/// let usual = Ticket::new("w=fog&w=dew");
/// assert_eq!(usual.text("w", &mut buffers), Ok("dew"));
/// let strict = Ticket { duplicates: DuplicateKeyBehavior::Error, ..usual };
/// assert!(strict.text("w", &mut buffers).is_err());
/// let config = Config { depth: 1, ..Config::default() };
/// let shallow = Ticket { config, ..Ticket::new("a[b][c]=1") };
/// assert_eq!(format!("{:?}", shallow.parse(&mut buffers)?), r#"{"a": {"b": {"[c]": "1"}}}"#);
/// # Ok::<(), qs::Refused>(())
/// ```
///
/// No call allocates. Each takes the records and text that it writes into, as `&mut` [`Lent`],
/// `Lent` or `&mut Buffers`.
#[derive(Clone, Copy, Debug)]
pub struct Ticket<'i> {
    /// The bytes of the query string.
    pub input: &'i [u8],
    /// How it is read.
    pub config: Config,
    /// What a field read does where several values were given for one text.
    pub duplicates: DuplicateKeyBehavior,
}

impl<'i> Ticket<'i> {
    /// A ticket that is read with the default settings.
    ///
    /// ```
    /// use qs::{Config, Ticket};
    /// let ticket = Ticket::new("a=1");
    /// assert_eq!((ticket.input, ticket.config), (&b"a=1"[..], Config::default()));
    /// ```
    pub fn new(input: &'i (impl AsRef<[u8]> + ?Sized)) -> Self {
        Ticket {
            input: input.as_ref(),
            config: Config::new(),
            duplicates: DuplicateKeyBehavior::TakeLast,
        }
    }

    /// Reads the ticket's tree.
    ///
    /// ```
    /// use qs::{Buffers, Refusal, Ticket};
    /// let mut buffers = Buffers::for_len(16);
    /// let reading = Ticket::new("a=1&b[]=2").parse(&mut buffers)?;
    /// assert_eq!(reading.tree().get("a").and_then(|a| a.text_str()), Some("1"));
    /// assert_eq!(reading.text(), b"a1b2");
    /// let refused = Ticket::new("a[").parse(&mut buffers).unwrap_err();
    /// assert_eq!((refused.refusal, refused.place), (Refusal::EndAfterOpening, 3));
    /// # Ok::<(), qs::Refused>(())
    /// ```
    ///
    /// Where zeros in front of a number don't count, `007` and `7` are one key; where they do,
    /// these are two.
    ///
    /// ```
    /// use qs::{Buffers, Config, Refusal, Ticket};
    /// let mut buffers = Buffers::for_len(16);
    /// let ticket = Ticket::new("007=1&7[b]=2");
    /// let refused = ticket.parse(&mut buffers).unwrap_err();
    /// assert_eq!((refused.refusal, refused.place), (Refusal::MapOnString, 9));
    /// let config = Config { zeros: true, ..Config::default() };
    /// let reading = Ticket { config, ..ticket }.parse(&mut buffers)?;
    /// assert_eq!(format!("{reading:?}"), r#"{7: {"b": "2"}, "007": "1"}"#);
    /// # Ok::<(), qs::Refused>(())
    /// ```
    pub fn parse<'a>(self, lent: impl Into<Lent<'a>>) -> Result<Reading<'a>, Refused> {
        let mut lent = lent.into();
        let reading = raw::parse(self, Lent::from(&mut lent));
        accepted(reading)?;
        Ok(used(reading, lent))
    }

    /// Reads the text of the root's field of that name.
    ///
    /// A name is a string key alone: the `1` of `1=x` is a number and has no name. A field without
    /// a value has the empty text. Of several values the last counts, or they are refused, as
    /// [`duplicates`](Ticket::duplicates) has it.
    ///
    /// ```
    /// use qs::{Buffers, DuplicateKeyBehavior, Refusal, Ticket};
    /// let mut buffers = Buffers::for_len(16);
    /// let ticket = Ticket::new("w=fog&w=d%C3%A9j");
    /// assert_eq!(ticket.text("w", &mut buffers), Ok("déj"));
    /// let strict = Ticket { duplicates: DuplicateKeyBehavior::Error, ..ticket };
    /// let refused = strict.text("w", &mut buffers).unwrap_err();
    /// assert_eq!(refused.refusal, Refusal::SeveralValues);
    /// let refused = Ticket::new("1=x").text("1", &mut buffers).unwrap_err();
    /// assert_eq!(refused.refusal, Refusal::NoSuchField);
    /// ```
    pub fn text<'a>(
        self,
        name: impl AsRef<[u8]>,
        lent: impl Into<Lent<'a>>,
    ) -> Result<&'a str, Refused> {
        let mut lent = lent.into();
        let read = raw::text(self, name.as_ref(), Lent::from(&mut lent));
        accepted(read.reading)?;
        Ok(answered(lent.text, read.offset, read.length))
    }

    /// Reads the root's field of that name as a list of texts.
    ///
    /// A field without a value is an empty list, a single text a list of one, and a map is a list
    /// where its keys are the numbers from 0 on. `list` is lent for where each element lies in the
    /// text, [`ELEMENT_WORDS`] words each; [`list_room`](crate::list_room) words suffice.
    ///
    /// ```
    /// use qs::{Buffers, Refusal, Ticket};
    /// let ticket = Ticket::new("h[]=10&h[]=9&w[1]=b&w[0]=a");
    /// let (mut buffers, mut list) = (Buffers::for_len(32), [0; qs::list_room(32)]);
    /// assert!(ticket.list("h", &mut buffers, &mut list)?.eq(["10", "9"]));
    /// assert!(ticket.list("w", &mut buffers, &mut list)?.eq(["a", "b"]));
    /// let refused = ticket.list("h", &mut buffers, &mut list[..3]).unwrap_err();
    /// assert_eq!(refused.refusal, Refusal::ShortSlice);
    /// # Ok::<(), qs::Refused>(())
    /// ```
    pub fn list<'a>(
        self,
        name: impl AsRef<[u8]>,
        lent: impl Into<Lent<'a>>,
        list: &'a mut [u32],
    ) -> Result<Texts<'a>, Refused> {
        let mut lent = lent.into();
        let read = raw::list(self, name.as_ref(), Lent::from(&mut lent), list);
        accepted(read.reading)?;
        let words = ELEMENT_WORDS * read.length as usize;
        Ok(Texts::new(lent.text, &list[..words]))
    }

    /// Reads the ticket once, and then the text of the root's field of each name, as
    /// [`text`](Ticket::text) does.
    ///
    /// A field that can't be read doesn't refuse the call: its answer is its refusal. `answers` is
    /// lent for the answers, [`ANSWER_WORDS`] words each.
    ///
    /// ```
    /// use qs::{Buffers, NamesBuf, Refusal, Ticket};
    /// let names = NamesBuf::of(&["w", "absent", "h", "w"]);
    /// let (mut buffers, mut answers) = (Buffers::for_len(16), names.answers());
    /// let fields = Ticket::new("h=9&w=fog&w=dew").fields(&names, &mut buffers, &mut answers)?;
    /// assert!(fields.eq([Ok("dew"), Err(Refusal::NoSuchField), Ok("9"), Ok("dew")]));
    /// let refused = Ticket::new("w[").fields(&names, &mut buffers, &mut answers).unwrap_err();
    /// assert_eq!((refused.refusal, refused.place), (Refusal::EndAfterOpening, 3));
    /// # Ok::<(), qs::Refused>(())
    /// ```
    ///
    /// Names may be laid out by hand as well, and the answers be an array:
    ///
    /// ```
    /// use qs::{Buffers, Names, Ticket, ANSWER_WORDS};
    /// let names = Names { bytes: b"wh", ends: &[1, 2] };
    /// let (mut buffers, mut answers) = (Buffers::for_len(16), [0; 2 * ANSWER_WORDS]);
    /// let fields = Ticket::new("h=9&w=fog").fields(names, &mut buffers, &mut answers)?;
    /// assert!(fields.eq([Ok("fog"), Ok("9")]));
    /// # Ok::<(), qs::Refused>(())
    /// ```
    pub fn fields<'a, 'n>(
        self,
        names: impl Into<Names<'n>>,
        lent: impl Into<Lent<'a>>,
        answers: &'a mut [u32],
    ) -> Result<Fields<'a>, Refused> {
        let (names, mut lent) = (names.into(), lent.into());
        let reading = raw::fields(self, names, Lent::from(&mut lent), answers);
        accepted(reading)?;
        let words = ANSWER_WORDS * names.ends.len();
        Ok(Fields::new(used(reading, lent), &answers[..words]))
    }

    /// Reads the ticket, and writes the sheet of its tree into a lent page: a line of
    /// [`SHEET_LINE`] bytes for each value, the root first and every parent before its children.
    ///
    /// A line has the level, a string's length, the first letters of the kind, the key and the
    /// text. A byte outside 33 to 126 shows as a full stop, and a key or text that doesn't fit ends
    /// in `>` (READING, 'The sheet'). [`sheet_room`](crate::sheet_room) bytes suffice for the page.
    ///
    /// ```
    /// use qs::{Buffers, Refusal, Ticket};
    /// let ticket = Ticket::new("a=1");
    /// let (mut buffers, mut page) = (Buffers::for_len(3), [0; qs::sheet_room(3)]);
    /// let root = format!("{:72}\n", "  0       map");
    /// let a = format!("{:72}\n", "  1     1 stri a                         1");
    /// assert_eq!(ticket.sheet(&mut buffers, &mut page)?, root + &a);
    /// let refused = ticket.sheet(&mut buffers, &mut page[..100]).unwrap_err();
    /// assert_eq!(refused.refusal, Refusal::ShortPage);
    /// # Ok::<(), qs::Refused>(())
    /// ```
    pub fn sheet<'l, 'p>(
        self,
        lent: impl Into<Lent<'l>>,
        page: &'p mut [u8],
    ) -> Result<&'p str, Refused> {
        let reading = raw::sheet(self, lent.into(), page);
        accepted(reading)?;
        let lines = &page[..SHEET_LINE * reading.records as usize];
        Ok(core::str::from_utf8(lines).expect("a sheet is ASCII"))
    }

    /// Reads the ticket, and writes its tree into a lent output as a ticket again, which has the
    /// same tree where it is read with the same settings.
    ///
    /// It has one pair for each single value, in the order of keys, but an empty key last in its
    /// map. A space is written as `+`, the bytes `%+&=[]` as lower-case escapes, and so is the
    /// first digit of a string key that would be read as a number; a key that has the brackets past
    /// the depth in it keeps its first `[`. Other bytes stand as they are (READING, 'The writer').
    /// [`write_room`](crate::write_room) bytes suffice for the output.
    ///
    /// ```
    /// use qs::{Buffers, Refusal, Ticket};
    /// let (ticket, mut buffers) = (Ticket::new("b=%2B&a=1&a=2"), Buffers::for_len(13));
    /// let mut out = [0; qs::write_room(13)];
    /// assert_eq!(ticket.write(&mut buffers, &mut out)?, b"a[]=1&a[]=2&b=%2b");
    /// let refused = ticket.write(&mut buffers, &mut out[..16]).unwrap_err();
    /// assert_eq!(refused.refusal, Refusal::ShortOutput);
    /// # Ok::<(), qs::Refused>(())
    /// ```
    pub fn write<'l, 'o>(
        self,
        lent: impl Into<Lent<'l>>,
        out: &'o mut [u8],
    ) -> Result<&'o [u8], Refused> {
        let written = raw::write(self, lent.into(), out);
        accepted(written.reading)?;
        Ok(&out[..written.length as usize])
    }
}

/// A refusal by its name, where the number is one.
fn accepted(answer: raw::Reading) -> Result<(), Refused> {
    match answer.number {
        refusal::ACCEPTED => Ok(()),
        number => Err(Refused {
            refusal: Refusal::answered(number),
            place: answer.place,
        }),
    }
}

/// The parts of the lent buffers that an accepted reading uses.
fn used<'a>(answer: raw::Reading, lent: Lent<'a>) -> Reading<'a> {
    Reading {
        records: &lent.records[..RECORD_WORDS * answer.records as usize],
        text: &lent.text[..answer.bytes as usize],
    }
}

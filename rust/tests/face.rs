//! The calls of a ticket, which answer a `Result`, held against those of `qs::raw`, which the other
//! tests hold against the model and the crate: what is read, the refusal and its place, and what is
//! left in everything lent. `COMPARE=whole` in the environment makes the random part twenty times
//! as large.

mod common;

use common::inputs::{fields_query, query, BYTES, NAMES};
use common::{
    every_string, laid_out, lent, part, random_config, random_duplicates, ticket, times, Numbers,
    Random, BEFORE,
};
use qs::{raw, refusal, Buffers, Config, Lent, Names, NamesBuf, Refusal, Refused, Ticket};
use qs::{ANSWER_WORDS, ELEMENT_WORDS, RECORD_WORDS, SHEET_LINE};
use std::error::Error;

/// Everything that is lent to a call; `words` and `bytes` are what it fills besides the records and
/// the text.
#[derive(Clone, PartialEq)]
struct Memory {
    records: Vec<u32>,
    text: Vec<u8>,
    words: Vec<u32>,
    bytes: Vec<u8>,
}

/// How many words of records, bytes of text, and words and bytes besides.
type Sizes = [usize; 4];

impl Memory {
    fn new([records, text, words, bytes]: Sizes) -> Self {
        let (records, text) = lent(records, text);
        Memory {
            records,
            text,
            words: vec![BEFORE.into(); words],
            bytes: vec![BEFORE; bytes],
        }
    }

    /// The records and text, and what is filled besides.
    fn lend(&mut self) -> (Lent<'_>, &mut [u32], &mut [u8]) {
        let Memory {
            records,
            text,
            words,
            bytes,
        } = self;
        (Lent { records, text }, words, bytes)
    }
}

/// A call of the raw layer by number: what it answers with 0, as plain values, or the number and
/// place.
type Answer<T> = Result<T, (u32, u32)>;

fn answer<T>(reading: raw::Reading, accepted: impl FnOnce() -> T) -> Answer<T> {
    match reading.number {
        refusal::ACCEPTED => Ok(accepted()),
        number => Err((number, reading.place)),
    }
}

/// What the other layer answers, with a refusal by its number.
fn by_number<T>(result: Result<T, Refused>) -> Answer<T> {
    result.map_err(|Refused { refusal, place }| (refusal.number(), place))
}

/// What is asked.
#[derive(Clone, Copy, Debug)]
struct Asked<'a> {
    ticket: Ticket<'a>,
    name: &'a [u8],
    names: Names<'a>,
    sizes: Sizes,
}

/// How often each number was answered.
#[derive(Default)]
struct Counts(Numbers);

impl Counts {
    /// The two layers on memory of the same sizes: they answer the same, and leave the same.
    fn compare<T: PartialEq>(
        &mut self,
        asked: Asked,
        raw: impl FnOnce(&mut Memory) -> Answer<T>,
        face: impl FnOnce(&mut Memory) -> Answer<T>,
    ) {
        let (mut left, mut other) = (Memory::new(asked.sizes), Memory::new(asked.sizes));
        let (expected, got) = (raw(&mut left), face(&mut other));
        let number = expected.as_ref().err().map_or(0, |&(number, _)| number);
        self.0.count(number);
        assert!(got == expected, "{number} was expected: {asked:?}");
        assert!(left == other, "{number}, but not what is left: {asked:?}");
    }

    fn parse(&mut self, asked: Asked) {
        let raw = |memory: &mut Memory| {
            let reading = raw::parse(asked.ticket, memory.lend().0);
            answer(reading, || used(reading, memory))
        };
        let face = |memory: &mut Memory| {
            let reading = by_number(asked.ticket.parse(memory.lend().0))?;
            Ok((reading.records().to_vec(), reading.text().to_vec()))
        };
        self.compare(asked, raw, face);
    }

    fn text(&mut self, asked: Asked) {
        let raw = |memory: &mut Memory| {
            let read = raw::text(asked.ticket, asked.name, memory.lend().0);
            let text = || part(&memory.text, read.offset, read.length).to_vec();
            answer(read.reading, text)
        };
        let face = |memory: &mut Memory| {
            let text = asked.ticket.text(asked.name, memory.lend().0);
            by_number(text).map(|text| text.as_bytes().to_vec())
        };
        self.compare(asked, raw, face);
    }

    fn list(&mut self, asked: Asked) {
        let raw = |memory: &mut Memory| {
            let (lent, words, _) = memory.lend();
            let read = raw::list(asked.ticket, asked.name, lent, words);
            let elements = memory.words.chunks_exact(ELEMENT_WORDS);
            let text = |words: &[u32]| part(&memory.text, words[0], words[1]).to_vec();
            let texts = || elements.take(read.length as usize).map(text).collect();
            answer(read.reading, texts)
        };
        let face = |memory: &mut Memory| {
            let (lent, words, _) = memory.lend();
            let texts = by_number(asked.ticket.list(asked.name, lent, words))?;
            let length = texts.len();
            let texts: Vec<Vec<u8>> = texts.map(|text| text.as_bytes().to_vec()).collect();
            assert_eq!(length, texts.len());
            Ok(texts)
        };
        self.compare(asked, raw, face);
    }

    fn fields(&mut self, asked: Asked) {
        let raw = |memory: &mut Memory| {
            let (lent, words, _) = memory.lend();
            let reading = raw::fields(asked.ticket, asked.names, lent, words);
            let answers = memory.words.chunks_exact(ANSWER_WORDS);
            let field = |words: &[u32]| match words[0] {
                refusal::ACCEPTED => Ok(part(&memory.text, words[1], words[2]).to_vec()),
                number => Err(number),
            };
            let fields = || answers.take(asked.names.ends.len()).map(field).collect();
            answer(reading, || (fields(), used(reading, memory)))
        };
        let face = |memory: &mut Memory| {
            let (lent, words, _) = memory.lend();
            let fields = by_number(asked.ticket.fields(asked.names, lent, words))?;
            let reading = fields.reading();
            let used = (reading.records().to_vec(), reading.text().to_vec());
            let bytes = |text: &str| text.as_bytes().to_vec();
            let fields = fields.map(|field| field.map(bytes).map_err(Refusal::number));
            Ok((fields.collect::<Vec<_>>(), used))
        };
        self.compare(asked, raw, face);
    }

    fn sheet(&mut self, asked: Asked) {
        let raw = |memory: &mut Memory| {
            let (lent, _, page) = memory.lend();
            let reading = raw::sheet(asked.ticket, lent, page);
            let length = SHEET_LINE * reading.records as usize;
            answer(reading, || memory.bytes[..length].to_vec())
        };
        let face = |memory: &mut Memory| {
            let (lent, _, page) = memory.lend();
            let sheet = by_number(asked.ticket.sheet(lent, page));
            sheet.map(|sheet| sheet.as_bytes().to_vec())
        };
        self.compare(asked, raw, face);
    }

    fn write(&mut self, asked: Asked) {
        let raw = |memory: &mut Memory| {
            let (lent, _, out) = memory.lend();
            let written = raw::write(asked.ticket, lent, out);
            let length = written.length as usize;
            answer(written.reading, || memory.bytes[..length].to_vec())
        };
        let face = |memory: &mut Memory| {
            let (lent, _, out) = memory.lend();
            by_number(asked.ticket.write(lent, out)).map(<[u8]>::to_vec)
        };
        self.compare(asked, raw, face);
    }

    fn every_call(&mut self, asked: Asked) {
        self.parse(asked);
        self.text(asked);
        self.list(asked);
        self.fields(asked);
        self.sheet(asked);
        self.write(asked);
    }
}

/// The records and text that a reading uses.
fn used(reading: raw::Reading, memory: &Memory) -> (Vec<u32>, Vec<u8>) {
    let words = RECORD_WORDS * reading.records as usize;
    let (records, text) = (&memory.records[..words], &memory.text);
    (records.to_vec(), text[..reading.bytes as usize].to_vec())
}

/// Sizes that suffice for every call on an input of so many bytes, and so many names.
fn ample(length: usize, names: usize) -> Sizes {
    let (records, text) = qs::room(length);
    let words = qs::list_room(length).max(ANSWER_WORDS * names);
    [records, text, words, qs::sheet_room(length)]
}

/// A ticket at random, now and then at a depth that is refused.
fn random_ticket<'a>(random: &mut Random, input: &'a [u8]) -> Ticket<'a> {
    let mut config = random_config(random);
    if random.below(64) == 0 {
        config.depth = qs::MAX_DEPTH + 1;
    }
    let duplicates = random_duplicates(random);
    Ticket {
        input,
        config,
        duplicates,
    }
}

/// Every call, with buffers that suffice and with others, and with ends of names that may be wrong.
/// Every number comes but 2.
#[test]
fn random_inputs() {
    let mut random = Random::new(86);
    let mut counts = Counts::default();
    let (bytes, right) = laid_out(&NAMES);
    for turn in 0..times(20_000) {
        let pairs = 1 + random.below(6);
        let input = match turn % 3 {
            0 => query(&mut random, pairs),
            _ => fields_query(&mut random, pairs),
        };
        let mut ends = right.clone();
        if turn % 16 == 0 {
            ends[random.below(NAMES.len())] = random.below(bytes.len() + 3) as u32;
        }
        let (bytes, ends) = (&bytes[..], &ends[..]);
        counts.every_call(Asked {
            ticket: random_ticket(&mut random, &input),
            name: NAMES[random.below(NAMES.len())].as_bytes(),
            names: Names { bytes, ends },
            sizes: match turn % 4 {
                0 => [18 * RECORD_WORDS, 24, 40, 400].map(|most| random.below(most)),
                _ => ample(input.len(), NAMES.len()),
            },
        });
    }
    let all = 0..=Refusal::ALL.len() as u32;
    let met: Vec<u32> = all.filter(|&number| number != refusal::TOO_LONG).collect();
    counts.0.report("every call on random inputs", &met);
}

/// Both sides of the longest ticket, in every call.
#[test]
fn the_longest_input() {
    let mut counts = Counts::default();
    let names = NamesBuf::of(&["a", "b"]);
    for length in [qs::MAX_LEN, qs::MAX_LEN + 1] {
        let input = [b"a=", &vec![b'x'; length - 2][..]].concat();
        counts.every_call(Asked {
            ticket: Ticket::new(&input),
            name: b"a",
            names: names.lend(),
            sizes: ample(length, 2),
        });
    }
    let met = [refusal::ACCEPTED, refusal::TOO_LONG];
    counts.0.report("both sides of the longest input", &met);
}

/// What is said to suffice does, in every call on every short input: no refusal is for want of
/// room.
#[test]
fn the_rooms_suffice() {
    let mut counts = Numbers::default();
    let names = NamesBuf::of(&["a", "", "1"]);
    let short = [
        Refusal::NoRecord,
        Refusal::TooFewRecords,
        Refusal::TooLittleText,
        Refusal::ShortSlice,
        Refusal::ShortPage,
        Refusal::ShortAnswers,
        Refusal::ShortOutput,
    ];
    every_string(BYTES, 4, |input| {
        let (length, ticket) = (input.len(), ticket(Config::new(), input));
        let mut buffers = Buffers::for_len(length);
        let mut list = vec![0; qs::list_room(length)];
        let mut bytes = vec![0; qs::sheet_room(length)];
        let mut out = vec![0; qs::write_room(length)];
        let answers = [
            ticket.parse(&mut buffers).err(),
            ticket.list("a", &mut buffers, &mut list).err(),
            ticket.list("", &mut buffers, &mut list).err(),
            ticket
                .fields(&names, &mut buffers, &mut names.answers())
                .err(),
            ticket.sheet(&mut buffers, &mut bytes).err(),
            ticket.write(&mut buffers, &mut out).err(),
        ];
        for why in answers.into_iter().flatten() {
            let shown = input.escape_ascii();
            assert!(!short.contains(&why.refusal), "'{shown}': {why}");
            counts.count(why.refusal.number());
        }
    });
    let met = [refusal::END_AFTER_OPENING, refusal::NO_SUCH_FIELD];
    counts.report("every short input", &met);
}

/// More than the longest ticket is refused whatever is lent, so that no room is larger than its
/// own.
#[test]
fn no_room_is_larger_than_the_longest() {
    let rooms = |length| {
        let (words, bytes) = qs::room(length);
        let list = qs::list_room(length);
        [
            words,
            bytes,
            list,
            qs::sheet_room(length),
            qs::write_room(length),
        ]
    };
    assert_eq!(rooms(qs::MAX_LEN + 1), rooms(qs::MAX_LEN));
    assert_eq!(rooms(usize::MAX), rooms(qs::MAX_LEN));
    assert!(rooms(qs::MAX_LEN - 1)[..4] < rooms(qs::MAX_LEN)[..4]);
    assert_eq!(rooms(0), [RECORD_WORDS, 0, 0, SHEET_LINE, 2]);
}

/// Tickets that are refused: by what, where, and the words without the place.
const REFUSED: [(&str, Refusal, u32, &str); 10] = [
    (
        "a[",
        Refusal::EndAfterOpening,
        3,
        "the ticket ends straight after an open bracket",
    ),
    (
        "a[b",
        Refusal::EndBeforeClosing,
        4,
        "the ticket ends before the closing bracket",
    ),
    (
        "a[b]=1&a[]=2",
        Refusal::SequenceOnMap,
        10,
        "`[]` where a map is",
    ),
    (
        "a=1&a[]=2",
        Refusal::SequenceOnSingle,
        7,
        "`[]` where a single value is",
    ),
    (
        "a[]=1&a[b]=2",
        Refusal::MapOnSequence,
        9,
        "a key where a sequence is",
    ),
    (
        "a=1&a[b]=2",
        Refusal::MapOnString,
        7,
        "a key where a string is",
    ),
    (
        "a=&a[b]=2",
        Refusal::MapOnNull,
        6,
        "a key where an empty value is",
    ),
    ("a[b]x", Refusal::ByteAfterKey, 5, "another byte after `]`"),
    (
        "a[][b]=1",
        Refusal::OpeningAfterBrackets,
        4,
        "`[` after `[]`",
    ),
    (
        "a[]0=1",
        Refusal::ByteAfterBrackets,
        4,
        "another byte after `[]`",
    ),
];

/// Refusals by name, and what a person reads; without a place it isn't told.
#[test]
fn refusals_have_words() {
    let mut buffers = Buffers::for_len(64);
    for (input, refusal, place, words) in REFUSED {
        let why = Ticket::new(input).parse(&mut buffers);
        let why = why.expect_err("it is refused");
        assert_eq!(why, Refused { refusal, place }, "{input}");
        assert_eq!(why.to_string(), format!("{words}, at byte {place}"));
        assert_eq!(refusal.to_string(), words);
        let placeless = Refused { place: 0, ..why };
        assert_eq!(placeless.to_string(), words);
    }
}

/// Both kinds of refusal are errors as Rust has them, so that `?` takes them anywhere.
#[test]
fn refusals_are_errors() {
    fn caption(input: &str) -> Result<String, Box<dyn Error>> {
        let mut buffers = Buffers::for_len(input.len());
        Ok(Ticket::new(input).text("caption", &mut buffers)?.to_owned())
    }
    assert_eq!(caption("caption=Fog").ok().as_deref(), Some("Fog"));
    let why = caption("caption[").expect_err("it is refused");
    let refused = why.downcast_ref::<Refused>().expect("it is a refusal");
    assert_eq!(refused.refusal, Refusal::EndAfterOpening);
    let alone: Box<dyn Error> = refused.refusal.into();
    assert!(why.to_string().starts_with(&alone.to_string()));
}

/// Whatever is lent, and however: the answer is the same.
#[test]
fn every_way_to_lend() {
    let ticket = Ticket::new("caption=Fog+at+dawn");
    let mut buffers = Buffers::for_len(ticket.input.len());
    assert_eq!(ticket.text("caption", &mut buffers), Ok("Fog at dawn"));
    assert_eq!(ticket.text("caption", buffers.lend()), Ok("Fog at dawn"));
    let (mut records, mut text) = ([0; 2 * RECORD_WORDS], [0; 18]);
    let mut lent = Lent {
        records: &mut records,
        text: &mut text,
    };
    assert_eq!(ticket.text("caption", &mut lent), Ok("Fog at dawn"));
    assert_eq!(ticket.text(b"caption", lent), Ok("Fog at dawn"));
}

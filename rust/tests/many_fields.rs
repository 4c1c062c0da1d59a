//! `qs_fields`, the texts of many names from one reading. Held against the model: its own answer,
//! every word of the records, every byte of the text and every answer word, with ends of every sort
//! and any number of words lent. Held against `qs_text` of each name over buffers of the same
//! sizes, and against the crate's own deserializer. `COMPARE=whole` in the environment makes the
//! random part twenty times as large.

mod common;

use common::inputs::{fields_query, query, BYTES, NAMES};
use common::kinds::{Kind, USUAL};
use common::{
    crate_config, every_string, laid_out, lent, outcome, parsed, part, random_config,
    random_crate_config, random_duplicates, reference_is_there, settings, ticket, times, tree,
    Numbers, Random, BEFORE, SMALL_WORDS,
};
use model::{FieldsOutcome, Outcome};
use qs::DuplicateKeyBehavior::{self, Error, TakeLast};
use qs::{
    raw, refusal, Buffers, Config, Lent, Names, NamesBuf, Refusal, Refused, Ticket, ANSWER_WORDS,
    RECORD_WORDS,
};
use serde_qs_reference::{Key, Tree};

/// The buffers' sizes: words, bytes of text, and words for the answers.
#[derive(Clone, Copy, Debug)]
struct Sizes {
    words: usize,
    bytes: usize,
    answers: usize,
}

impl Sizes {
    /// They suffice for every input of so many bytes and so many names, with two answer words to
    /// spare.
    fn ample(length: usize, names: usize) -> Self {
        let (words, bytes) = qs::room(length);
        let answers = ANSWER_WORDS * names + 2;
        Sizes {
            words,
            bytes,
            answers,
        }
    }

    /// What is lent, as it is before a call.
    fn before(self) -> (Vec<u32>, Vec<u8>, Vec<u32>) {
        let (words, text) = lent(self.words, self.bytes);
        (words, text, vec![BEFORE.into(); self.answers])
    }
}

/// What is asked: of an input, the fields of names.
#[derive(Clone, Copy)]
struct Asked<'a> {
    config: Config,
    duplicates: DuplicateKeyBehavior,
    input: &'a [u8],
    names: Names<'a>,
}

/// What is asked at the usual settings, with the last of several values.
fn usual<'a>(input: &'a [u8], names: Names<'a>) -> Asked<'a> {
    Asked {
        config: Config::default(),
        duplicates: TakeLast,
        input,
        names,
    }
}

/// Names that are laid out.
fn names((bytes, ends): &(Vec<u8>, Vec<u32>)) -> Names<'_> {
    Names { bytes, ends }
}

impl<'a> Asked<'a> {
    fn ticket(self) -> Ticket<'a> {
        Ticket {
            input: self.input,
            config: self.config,
            duplicates: self.duplicates,
        }
    }

    /// What `qs_fields` answers and leaves.
    fn fields(self, sizes: Sizes) -> FieldsOutcome {
        let (mut words, mut text, mut answers) = sizes.before();
        let lent = Lent {
            records: &mut words,
            text: &mut text,
        };
        let reading = raw::fields(self.ticket(), self.names, lent, &mut answers);
        let reading = outcome(reading, words, text);
        FieldsOutcome { reading, answers }
    }

    fn model(self, sizes: Sizes) -> FieldsOutcome {
        let (words, text, answers) = sizes.before();
        let Names { bytes, ends } = self.names;
        model::fields(
            settings(self.config),
            self.duplicates == Error,
            self.input,
            model::Names { bytes, ends },
            &words,
            &text,
            &answers,
        )
    }

    /// What `qs_text` of one name answers, as answer words; and the reading's answer, with what is
    /// left.
    fn single(self, name: &[u8], sizes: Sizes) -> ([u32; ANSWER_WORDS], Outcome) {
        let (mut words, mut text) = lent(sizes.words, sizes.bytes);
        let lent = Lent {
            records: &mut words,
            text: &mut text,
        };
        let read = raw::text(self.ticket(), name, lent);
        let answer = [read.reading.number, read.offset, read.length];
        (answer, outcome(read.reading, words, text))
    }

    /// The crate's text of one name.
    fn reference(self, name: &str) -> Result<Vec<u8>, u32> {
        let Config { depth, form, .. } = self.config;
        let duplicates = self.duplicates == Error;
        serde_qs_reference::text(self.input, depth as usize, form, duplicates, name)
    }

    /// The names one by one. Their ends are right.
    fn each(self) -> impl Iterator<Item = &'a [u8]> {
        let Names { bytes, ends } = self.names;
        let mut start = 0;
        ends.iter().map(move |&end| {
            let name = &bytes[start..end as usize];
            start = end as usize;
            name
        })
    }

    fn described(self) -> String {
        let Asked {
            config,
            duplicates,
            input,
            names,
        } = self;
        let input = &input[..input.len().min(200)];
        let bytes = &names.bytes[..names.bytes.len().min(200)];
        let ends = &names.ends[..names.ends.len().min(40)];
        format!(
            "{config:?} {duplicates:?} '{}' names '{}' of {} bytes, {} ends {ends:?}",
            input.escape_ascii(),
            bytes.escape_ascii(),
            names.bytes.len(),
            names.ends.len()
        )
    }
}

/// How often each number was answered: by calls, and in the answer words.
#[derive(Default)]
struct Counts {
    own: Numbers,
    answers: Numbers,
}

impl Counts {
    /// With any ends and buffers: all that the model says, what a reading leaves, and what single
    /// reads answer and leave.
    fn compare(&mut self, asked: Asked, sizes: Sizes) -> FieldsOutcome {
        let described = || format!("{sizes:?} {}", asked.described());
        let got = asked.fields(sizes);
        let number = got.reading.number;
        self.own.count(number);
        let expected = asked.model(sizes);
        assert_eq!(got.answers, expected.answers, "{}", described());
        let same = got.reading == expected.reading;
        assert!(same, "not the model's reading: {}", described());
        let count = match number {
            refusal::ACCEPTED => asked.names.ends.len(),
            _ => 0,
        };
        let (answers, past) = got.answers.split_at(ANSWER_WORDS * count);
        let untouched = past.iter().all(|&word| word == BEFORE.into());
        assert!(untouched, "changed past the last answer: {}", described());
        if !refusal::OF_NAMES.contains(&number) {
            self.with_single_reads(asked, sizes, &got.reading, answers);
        }
        got
    }

    /// A reading, of which records and text are those of `qs_parse`, and each answer is that of
    /// `qs_text`. A refused one has none.
    fn with_single_reads(&mut self, asked: Asked, sizes: Sizes, got: &Outcome, answers: &[u32]) {
        let described = || format!("{sizes:?} {}", asked.described());
        let reading = parsed(asked.config, asked.input, sizes.words, sizes.bytes);
        let same = *got == reading;
        assert!(same, "not the reading of qs_parse: {}", described());
        let accepted = got.number == refusal::ACCEPTED;
        let mut answers = answers.chunks_exact(ANSWER_WORDS);
        for name in asked.each() {
            let (single, mut left) = asked.single(name, sizes);
            if accepted {
                let answer = answers.next().expect("an answer for each name");
                self.answers.count(answer[0]);
                assert_eq!(answer, single, "{}", described());
                left.number = refusal::ACCEPTED;
            }
            let same = *got == left;
            assert!(same, "not what a single read leaves: {}", described());
        }
        assert_eq!(answers.next(), None, "{}", described());
    }

    /// With ample buffers: the crate's bytes or its refusal for every name, and all of the above.
    fn with_the_crate(&mut self, asked: Asked) {
        let sizes = Sizes::ample(asked.input.len(), asked.names.ends.len());
        let got = self.compare(asked, sizes);
        let own = got.reading.number;
        let answers = got.answers.chunks_exact(ANSWER_WORDS);
        for (name, words) in asked.each().zip(answers) {
            let meant = match (own, words[0]) {
                (refusal::ACCEPTED, refusal::ACCEPTED) => {
                    Ok(part(&got.reading.text, words[1], words[2]).to_vec())
                }
                (refusal::ACCEPTED, number) | (number, _) => Err(number),
            };
            let name = std::str::from_utf8(name).expect("the crate's names are text");
            let expected = asked.reference(name);
            assert_eq!(meant, expected, "{name:?} {}", asked.described());
        }
    }

    fn report(&self, what: &str, own: &[u32], answers: &[u32]) {
        self.own.report(&format!("{what}: calls"), own);
        self.answers.report(&format!("{what}: names"), answers);
    }
}

/// The refusals of a reading from the first byte on that ample buffers leave.
const OF_BYTES: [u32; 10] = [4, 5, 6, 7, 8, 9, 10, 11, 12, 13];

/// The numbers that a name may have.
const OF_A_TEXT: [u32; 6] = [0, 16, 17, 18, 19, 21];

#[test]
fn every_short_input() {
    if !reference_is_there() {
        return;
    }
    let mut counts = Counts::default();
    let laid = laid_out(&["a", "1", "", "a", "b"]);
    for (depth, form) in [(0, false), (1, true), (5, false)] {
        every_string(BYTES, 4, |input| {
            for duplicates in [TakeLast, Error] {
                counts.with_the_crate(Asked {
                    config: crate_config(depth, form),
                    duplicates,
                    input,
                    names: names(&laid),
                });
            }
        });
    }
    counts.report(
        "every input of up to 4 bytes over 12, at 3 settings",
        &[&OF_BYTES[..], &[0]].concat(),
        &OF_A_TEXT,
    );
}

#[test]
fn random_and_damaged_inputs() {
    if !reference_is_there() {
        return;
    }
    let mut random = Random::new(41);
    let mut counts = Counts::default();
    for turn in 0..times(50_000) {
        let pairs = 1 + random.below(8);
        let input = &match turn % 2 {
            0 => query(&mut random, pairs),
            _ => fields_query(&mut random, pairs),
        };
        let count = random.below(13);
        let drawn: Vec<&str> = (0..count)
            .map(|_| NAMES[random.below(NAMES.len())])
            .collect();
        counts.with_the_crate(Asked {
            config: random_crate_config(&mut random),
            duplicates: random_duplicates(&mut random),
            input,
            names: names(&laid_out(&drawn)),
        });
    }
    counts.report(
        "random and damaged inputs",
        &[&OF_BYTES[..], &[0]].concat(),
        &OF_A_TEXT,
    );
}

/// Up to 30 names: those that inputs have, any bytes, empty ones, and some again.
fn random_names(random: &mut Random) -> Vec<Vec<u8>> {
    let most = [2, 6, 31][random.below(3)];
    let mut names: Vec<Vec<u8>> = Vec::new();
    for _ in 0..random.below(most) {
        let length = random.below(4);
        names.push(match random.below(6) {
            0 => vec![0xFF],
            1 => random.bytes(length),
            2 => random.string(BYTES, length),
            3 if !names.is_empty() => names[random.below(names.len())].clone(),
            _ => NAMES[random.below(NAMES.len())].into(),
        });
    }
    names
}

/// Such names laid out, in some cases with bytes behind the last end, and in five cases out of
/// eight with wrong ends: one of them, wherever it stands, or all of them any numbers.
fn random_layout(random: &mut Random) -> (Vec<u8>, Vec<u32>) {
    let (mut bytes, mut ends) = laid_out(&random_names(random));
    if random.below(3) == 0 {
        bytes.extend(random.bytes(2));
    }
    if ends.is_empty() {
        return (bytes, ends);
    }
    let one = random.below(ends.len());
    let length = bytes.len() as u32;
    match random.below(8) {
        0 if one > 0 => ends[one] = ends[one - 1].saturating_sub(1),
        1 => ends[one] = length + 1,
        2 => ends[one..].fill(length + 1),
        3 => ends[one] = u32::MAX - random.below(2) as u32,
        4 => ends.fill_with(|| random.below(length as usize + 2) as u32),
        _ => {}
    }
    (bytes, ends)
}

/// Numbers of answer words around those that so many names need.
fn random_answers(random: &mut Random, names: usize) -> usize {
    let enough = ANSWER_WORDS * names;
    match random.below(8) {
        0 => enough.saturating_sub(1),
        1 => enough + 1,
        2 => enough + 2,
        3 => enough + 5,
        4 => random.below(enough + 6),
        _ => enough,
    }
}

/// Names of any bytes, with ends that may be wrong, and buffers that may be too small.
#[test]
fn random_names_ends_and_buffers() {
    let mut random = Random::new(42);
    let mut counts = Counts::default();
    for turn in 0..times(60_000) {
        let mut config = random_config(&mut random);
        if random.below(32) == 0 {
            config.depth = qs::MAX_DEPTH + 1;
        }
        let pairs = 1 + random.below(6);
        let input = match turn % 3 {
            0 => query(&mut random, pairs),
            _ => fields_query(&mut random, pairs),
        };
        let laid = random_layout(&mut random);
        let answers = random_answers(&mut random, laid.1.len());
        let sizes = match turn % 2 {
            0 => Sizes::ample(input.len(), 0),
            _ => Sizes {
                words: random.below(18 * RECORD_WORDS),
                bytes: random.below(24),
                answers,
            },
        };
        let asked = Asked {
            config,
            duplicates: random_duplicates(&mut random),
            input: &input,
            names: names(&laid),
        };
        counts.compare(asked, Sizes { answers, ..sizes });
    }
    counts.report(
        "random names, ends and buffers",
        &[&OF_BYTES[..], &[0, 1, 3, 14, 15, 24, 25]].concat(),
        &OF_A_TEXT,
    );
}

/// Every small buffer of records and text: those of `qs_parse` and of single reads, refused or not.
#[test]
fn every_small_buffer() {
    let mut counts = Counts::default();
    let laid = laid_out(&["a", "", "a"]);
    let answers = [9, 10, 11];
    let mut sizes = Vec::new();
    for (words, bytes) in SMALL_WORDS
        .iter()
        .flat_map(|&words| (0..4).map(move |bytes| (words, bytes)))
    {
        sizes.extend(answers.map(|answers| Sizes {
            words,
            bytes,
            answers,
        }));
    }
    for duplicates in [TakeLast, Error] {
        every_string(b"a[]&=%", 3, |input| {
            for &sizes in &sizes {
                let asked = usual(input, names(&laid));
                counts.compare(
                    Asked {
                        duplicates,
                        ..asked
                    },
                    sizes,
                );
            }
        });
    }
    counts.report(
        "every input of up to 3 bytes over 6, in 72 sizes",
        &[0, 3, 4, 14, 15],
        &[0, 16, 17, 19],
    );
}

/// A ticket with every part of `abc` as a name.
const PARTS: &[u8] = b"a=1&ab=2&abc=3&b=4&bc=5&c=6&=7";

/// Every list of up to 4 ends that lie in three bytes of names or pass them, and every number of
/// answer words around what it needs.
#[test]
fn every_list_of_ends() {
    const LENGTH: u32 = 3;
    let choices = [0, 1, 2, LENGTH, LENGTH + 1, u32::MAX];
    let mut counts = Counts::default();
    every_string(&[0, 1, 2, 3, 4, 5], 4, |list| {
        let ends: Vec<u32> = list.iter().map(|&i| choices[usize::from(i)]).collect();
        let asked = usual(
            PARTS,
            Names {
                bytes: b"abc",
                ends: &ends,
            },
        );
        let rise = ends.windows(2).all(|two| two[0] <= two[1]);
        let right = rise && ends.iter().all(|&end| end <= LENGTH);
        for answers in 0..3 * ends.len() + 4 {
            let ample = Sizes::ample(PARTS.len(), 0);
            let got = counts.compare(asked, Sizes { answers, ..ample });
            let number = match (right, answers < 3 * ends.len()) {
                (false, _) => 24,
                (true, true) => 25,
                (true, false) => 0,
            };
            assert_eq!(got.reading.number, number, "{ends:?}, {answers} words");
        }
    });
    counts.report("every list of up to 4 ends", &[0, 24, 25], &[0]);
}

/// What decides a call's own number, in the order in which it is looked at.
const IN_ORDER: [u32; 6] = [
    refusal::WRONG_ENDS,
    refusal::SHORT_ANSWERS,
    refusal::TOO_DEEP,
    refusal::TOO_LONG,
    refusal::NO_RECORD,
    refusal::END_AFTER_OPENING,
];

/// Which of these are met, a bit each.
#[derive(Clone, Copy, Debug)]
struct Met(usize);

impl Met {
    /// 1 for one that is met, else 0.
    fn count(self, number: u32) -> usize {
        let bit = IN_ORDER.iter().position(|&of| of == number);
        self.0 >> bit.expect("it is in order") & 1
    }

    fn first(self) -> Option<u32> {
        let mut numbers = IN_ORDER.into_iter();
        numbers.find(|&number| self.count(number) == 1)
    }

    fn input(self) -> Vec<u8> {
        let end = [&b"a=1"[..], b"a["][self.count(refusal::END_AFTER_OPENING)];
        let start = qs::MAX_LEN * self.count(refusal::TOO_LONG);
        [&vec![b'&'; start], end].concat()
    }

    /// What is asked of that input, for three names.
    fn asked(self, input: &[u8]) -> Asked<'_> {
        let depth = qs::MAX_DEPTH + self.count(refusal::TOO_DEEP) as u32;
        let ends = [&[1, 2, 2], &[1, 2, 1]][self.count(refusal::WRONG_ENDS)];
        Asked {
            config: crate_config(depth, false),
            ..usual(input, Names { bytes: b"ab", ends })
        }
    }

    fn sizes(self) -> Sizes {
        Sizes {
            words: [3 * RECORD_WORDS, RECORD_WORDS - 1][self.count(refusal::NO_RECORD)],
            bytes: 4,
            answers: 9 - self.count(refusal::SHORT_ANSWERS),
        }
    }
}

/// All that can be wrong at once, in every combination: the first in order stands. All but the last
/// leave every buffer as it was, and the last the answer words.
#[test]
fn the_first_refusal_stands() {
    let mut counts = Counts::default();
    for met in (0..1 << IN_ORDER.len()).map(Met) {
        let (input, sizes) = (met.input(), met.sizes());
        let got = counts.compare(met.asked(&input), sizes);
        let FieldsOutcome { reading, answers } = got;
        assert_eq!(reading.number, met.first().unwrap_or(0), "{met:?}");
        let counted = (reading.place, reading.records, reading.bytes);
        let (words, text, before) = sizes.before();
        match reading.number {
            refusal::ACCEPTED => {
                assert_eq!(answers, [0, 1, 1, 17, 0, 0, 17, 0, 0]);
                assert_eq!(counted, (0, 2, 2));
            }
            refusal::END_AFTER_OPENING => {
                assert_eq!((reading.words, reading.text), (vec![0; 24], vec![0; 4]));
                assert_eq!((answers, counted), (before, (3, 0, 0)));
            }
            _ => {
                assert_eq!((reading.words, reading.text), (words, text), "{met:?}");
                assert_eq!((answers, counted), (before, (0, 0, 0)), "{met:?}");
            }
        }
    }
    let all = [&IN_ORDER[..], &[0]].concat();
    counts.report("64 combinations of what is wrong", &all, &[0, 17]);
}

/// Each refusal of a reading from the first byte on, and by small buffers: records and text are
/// zero, and the answer words stay.
#[test]
fn refused_readings_leave_the_answer_words() {
    let cases: [(&str, u32, u32); 12] = [
        ("a[", 4, 3),
        ("a[b", 5, 4),
        ("a[b]=1&a[]=2", 6, 10),
        ("a=1&a[]=2", 7, 7),
        ("a[]=1&a[b]=2", 8, 9),
        ("a=1&a[b]=2", 9, 7),
        ("a=&a[b]=2", 10, 6),
        ("a[b]x", 11, 5),
        ("a[][b]=1", 12, 4),
        ("a[]0=1", 13, 4),
        ("a&b&c&d", 14, 8),
        ("abcdefghi", 15, 10),
    ];
    let sizes = Sizes {
        words: 4 * RECORD_WORDS,
        bytes: 8,
        answers: 8,
    };
    for (input, number, place) in cases {
        let two = Names {
            bytes: b"ab",
            ends: &[1, 2],
        };
        let asked = usual(input.as_bytes(), two);
        let FieldsOutcome { reading, answers } = Counts::default().compare(asked, sizes);
        assert_eq!((reading.number, reading.place), (number, place), "{input}");
        assert_eq!((reading.records, reading.bytes), (0, 0), "{input}");
        assert_eq!((reading.words, reading.text), (vec![0; 32], vec![0; 8]));
        assert_eq!(answers, [7; 8], "{input}");
    }
}

/// An end that is wrong only at the last of many, by one: nothing is written.
#[test]
fn the_last_of_many_ends() {
    let mut counts = Counts::default();
    let input = b"a=1";
    for (last, number) in [(48, 24), (49, 0), (50, 0), (51, 24), (u32::MAX, 24)] {
        let ends: Vec<u32> = (1..50).chain([last]).collect();
        let laid = (b"a".repeat(50), ends);
        let sizes = Sizes::ample(input.len(), laid.1.len());
        let got = counts.compare(usual(input, names(&laid)), sizes);
        let FieldsOutcome { reading, answers } = got;
        assert_eq!(reading.number, number, "last end {last}");
        let left = (reading.words, reading.text, answers);
        assert_eq!(left == sizes.before(), number == 24, "last end {last}");
    }
}

/// Without names the input is read all the same, whatever bytes are lent for names and words for
/// answers.
#[test]
fn an_empty_list_reads() {
    let mut counts = Counts::default();
    for (depth, input, words, number) in [
        (5, "a=1&b[]=2", 8 * RECORD_WORDS, 0),
        (5, "", RECORD_WORDS, 0),
        (5, "&", RECORD_WORDS, 0),
        (qs::MAX_DEPTH + 1, "a=1", 8 * RECORD_WORDS, 1),
        (5, "a=1", RECORD_WORDS - 1, 3),
        (5, "a[", 8 * RECORD_WORDS, 4),
        (5, "a=1", RECORD_WORDS, 14),
        (5, "a=123456789", 8 * RECORD_WORDS, 15),
    ] {
        let config = crate_config(depth, false);
        let input = input.as_bytes();
        for (bytes, answers) in [(&b""[..], 0), (b"", 1), (b"ab", 0), (b"ab", 5)] {
            let none = usual(input, Names { bytes, ends: &[] });
            let sizes = Sizes {
                words,
                bytes: 8,
                answers,
            };
            let got = counts.compare(Asked { config, ..none }, sizes);
            assert_eq!(got.reading.number, number);
            assert_eq!(got.reading, parsed(config, input, words, sizes.bytes));
            assert_eq!(got.answers, sizes.before().2);
        }
    }
    counts.report("empty lists", &[0, 1, 3, 4, 14, 15], &[]);
}

/// A ticket, and names that have every number which names of a map may have; `a` comes twice.
const MIXED: &[u8] = b"a=1&b=%C3&c=2&c=3&d[e]=4&f&=5";
const MIXED_NAMES: [&str; 9] = ["c", "a", "x", "", "b", "d", "f", "a", "ab"];

/// Each number by hand: answers stand in the order of the names, a repeated one again, and a
/// refused one with two zeros.
#[test]
fn answers_by_hand() {
    let laid = laid_out(&MIXED_NAMES);
    let by_hand = (b"caxbdfaab".to_vec(), vec![1, 2, 3, 3, 4, 5, 6, 7, 9]);
    assert_eq!(laid, by_hand);
    for (duplicates, c) in [(TakeLast, [0, 6, 1]), (Error, [19, 0, 0])] {
        let asked = Asked {
            duplicates,
            ..usual(MIXED, names(&laid))
        };
        let sizes = Sizes::ample(MIXED.len(), MIXED_NAMES.len());
        let FieldsOutcome { reading, answers } = Counts::default().compare(asked, sizes);
        assert_eq!((reading.number, reading.place), (0, 0));
        assert_eq!((reading.records, reading.bytes), (10, 12));
        assert_eq!(reading.text[..12], *b"a1b\xC3c23de4f5");
        let expected = [
            c,
            [0, 1, 1],
            [17, 0, 0],
            [0, 11, 1],
            [21, 0, 0],
            [18, 0, 0],
            [0, 0, 0],
            [0, 1, 1],
            [17, 0, 0],
        ];
        let (answers, past) = answers.split_at(27);
        assert_eq!((answers, past), (&expected.concat()[..], &[7, 7][..]));
    }
}

/// The same bytes cut elsewhere are other names.
#[test]
fn names_are_what_the_ends_cut() {
    let texts = |ends: &[u32]| -> String {
        let cut = Names {
            bytes: b"abc",
            ends,
        };
        let asked = usual(PARTS, cut);
        let sizes = Sizes::ample(PARTS.len(), ends.len());
        let got = Counts::default().compare(asked, sizes);
        let answers = got.answers.chunks_exact(ANSWER_WORDS);
        let texts = answers.map(|words| {
            assert_eq!((words[0], words[2]), (0, 1), "{ends:?}");
            char::from(got.reading.text[words[1] as usize])
        });
        texts.collect()
    };
    assert_eq!(texts(&[3]), "3");
    assert_eq!(texts(&[1, 2, 3]), "146");
    assert_eq!(texts(&[1, 3]), "15");
    assert_eq!(texts(&[2, 3]), "26");
    assert_eq!(texts(&[0, 0, 2, 2, 3, 3]), "772767");
    assert_eq!(texts(&[1]), "1");
    assert_eq!(texts(&[0]), "7");
}

/// Every root but a map: no names at all, the empty name alone, or nothing that has names.
#[test]
fn other_roots() {
    let mut counts = Counts::default();
    let laid = laid_out(&["", "a"]);
    let cases: [(&[u8], [u32; 6]); 6] = [
        (b"", [17, 0, 0, 17, 0, 0]),
        (b"=", [17, 0, 0, 17, 0, 0]),
        (b"=xy", [0, 0, 2, 17, 0, 0]),
        (b"=%C3", [21, 0, 0, 17, 0, 0]),
        (b"[]=x", [16, 0, 0, 16, 0, 0]),
        (b"&&", [16, 0, 0, 16, 0, 0]),
    ];
    for (input, expected) in cases {
        let asked = usual(input, names(&laid));
        let got = counts.compare(asked, Sizes::ample(input.len(), 2));
        assert_eq!(got.reading.number, refusal::ACCEPTED);
        assert_eq!(got.answers[..6], expected, "{}", input.escape_ascii());
    }
}

/// More names than a ticket has bytes, most of them again and again.
#[test]
fn a_long_list() {
    let mut counts = Counts::default();
    let many: Vec<&str> = MIXED_NAMES.into_iter().cycle().take(20_000).collect();
    let laid = laid_out(&many);
    for duplicates in [TakeLast, Error] {
        for short in [0, 1] {
            let asked = Asked {
                duplicates,
                ..usual(MIXED, names(&laid))
            };
            let answers = ANSWER_WORDS * many.len() - short;
            let ample = Sizes::ample(MIXED.len(), 0);
            let got = counts.compare(asked, Sizes { answers, ..ample });
            assert_eq!(got.reading.number, if short == 1 { 25 } else { 0 });
        }
    }
    counts.report("20,000 names", &[0, 25], &[0, 17, 18, 19, 21]);
}

/// Some String keys of the root, each also without its last byte and with one more; the empty name,
/// and one that is absent.
fn names_around(random: &mut Random, root: &Tree) -> Vec<Vec<u8>> {
    let mut names = vec![Vec::new(), b"absent".to_vec()];
    let Tree::Map(entries) = root else {
        return names;
    };
    let keys: Vec<&Vec<u8>> = entries
        .iter()
        .filter_map(|(key, _)| match key {
            Key::String(bytes) => Some(bytes),
            Key::Int(_) => None,
        })
        .collect();
    for _ in 0..keys.len().min(12) {
        let key = keys[random.below(keys.len())];
        names.push(key.clone());
        names.push(key[..key.len().saturating_sub(1)].to_vec());
        names.push([&key[..], &[random.byte()]].concat());
    }
    random.shuffle(&mut names);
    names
}

/// Long inputs of every usual kind, with names that they have and others near these.
#[test]
fn kinds() {
    let mut random = Random::new(43);
    let mut counts = Counts::default();
    for Kind { depth, make, .. } in &USUAL {
        let config = crate_config(*depth, false);
        let input = make(times(10_000).min(qs::MAX_LEN));
        let (words, bytes) = qs::room(input.len());
        let reading = parsed(config, &input, words, bytes);
        let root = tree(&reading.words, &reading.text);
        let laid = laid_out(&names_around(&mut random, &root));
        for duplicates in [TakeLast, Error] {
            let asked = Asked {
                config,
                duplicates,
                input: &input,
                names: names(&laid),
            };
            counts.compare(asked, Sizes::ample(input.len(), laid.1.len()));
        }
    }
    counts.report("every usual kind of long input", &[0], &[0, 16, 17, 18, 19]);
}

/// The longest input is read, and one byte more is refused by 2.
#[test]
fn the_longest_input() {
    let mut counts = Counts::default();
    for (length, number) in [(qs::MAX_LEN, 0), (qs::MAX_LEN + 1, 2)] {
        let input = [b"a=", &vec![b'x'; length - 2][..]].concat();
        let two = Names {
            bytes: b"ba",
            ends: &[1, 2],
        };
        let got = counts.compare(usual(&input, two), Sizes::ample(length, 2));
        let FieldsOutcome { reading, answers } = got;
        assert_eq!((reading.number, reading.place), (number, 0));
        let expected = match number {
            0 => [17, 0, 0, 0, 1, 65_533, 7, 7],
            _ => [7; 8],
        };
        assert_eq!(answers, expected);
    }
}

// The call with names as they come.

/// The answers to the names of a mixed ticket, of several values the last.
const MIXED_ANSWERS: [Result<&str, Refusal>; 9] = [
    Ok("3"),
    Ok("1"),
    Err(Refusal::NoSuchField),
    Ok("5"),
    Err(Refusal::NotUtf8),
    Err(Refusal::WrongKind),
    Ok(""),
    Ok("1"),
    Err(Refusal::NoSuchField),
];

#[test]
fn answers_come_in_turn() {
    let (mut buffers, mut others) = (Buffers::for_len(MIXED.len()), Buffers::for_len(MIXED.len()));
    let (ticket, laid) = (Ticket::new(MIXED), NamesBuf::of(&MIXED_NAMES));
    let mut answers = laid.answers();
    let alone = ticket.parse(&mut others).expect("it is accepted");
    let fields = ticket.fields(&laid, &mut buffers, &mut answers);
    let mut fields = fields.expect("it is accepted");
    assert_eq!(fields.reading().records(), alone.records());
    assert_eq!(fields.reading().text(), alone.text());
    let backwards: Vec<_> = fields.clone().rev().collect();
    assert!(backwards.iter().rev().eq(&MIXED_ANSWERS));
    assert_eq!(format!("{fields:?}"), format!("{MIXED_ANSWERS:?}"));
    for (taken, answer) in MIXED_ANSWERS.into_iter().enumerate() {
        let left = MIXED_NAMES.len() - taken;
        assert_eq!(
            (fields.len(), fields.size_hint()),
            (left, (left, Some(left)))
        );
        assert_eq!(fields.next(), Some(answer));
    }
    assert_eq!(
        (fields.len(), fields.next(), fields.next_back()),
        (0, None, None)
    );
    assert_eq!(fields.next(), None);
}

/// From both ends, each answer comes once. Answer words past the last are none.
#[test]
fn answers_come_from_both_ends() {
    let ticket = Ticket {
        duplicates: Error,
        ..Ticket::new(MIXED)
    };
    let laid = NamesBuf::of(&MIXED_NAMES[..3]);
    let (mut buffers, mut answers) = (Buffers::for_len(MIXED.len()), [7; 3 * ANSWER_WORDS + 4]);
    let fields = ticket.fields(&laid, &mut buffers, &mut answers);
    let mut fields = fields.expect("it is accepted");
    assert_eq!(fields.next_back(), Some(Err(Refusal::NoSuchField)));
    assert_eq!(fields.next(), Some(Err(Refusal::SeveralValues)));
    assert_eq!((fields.next_back(), fields.len()), (Some(Ok("1")), 0));
    assert_eq!((fields.next(), fields.next_back()), (None, None));
}

/// Whatever names are kept in; no names have no answers.
#[test]
fn names_of_every_type() {
    fn texts<N: AsRef<[u8]>>(input: &[u8], names: &[N]) -> Result<String, Refused> {
        let laid = NamesBuf::of(names);
        let (mut buffers, mut answers) = (Buffers::for_len(input.len()), laid.answers());
        let fields = Ticket::new(input).fields(&laid, &mut buffers, &mut answers)?;
        Ok(fields.flatten().collect())
    }
    let text = |text: &str| Ok(text.to_owned());
    let input = b"a=1&b=2&caption=Fog";
    assert_eq!(texts(input, &[b"b", b"a"]), text("21"));
    assert_eq!(texts(input, &["caption", "a"]), text("Fog1"));
    assert_eq!(texts(input, &["b".to_owned()]), text("2"));
    let names: Vec<Vec<u8>> = vec![b"a".to_vec(), b"caption".to_vec()];
    assert_eq!(texts(input, &names), text("1Fog"));
    assert_eq!(texts(input, &[&names[1][..], b"b"]), text("Fog2"));
    assert_eq!(texts::<&str>(input, &[]), text(""));
}

/// A refused reading is the error, with names and without.
#[test]
fn a_refused_reading_is_the_error() {
    let long = [b'&'; qs::MAX_LEN + 1];
    let cases: [(u32, &[u8], usize, Refusal, u32); 6] = [
        (
            qs::MAX_DEPTH + 1,
            b"a=1",
            4 * RECORD_WORDS,
            Refusal::TooDeep,
            0,
        ),
        (5, &long, 4 * RECORD_WORDS, Refusal::TooLong, 0),
        (5, b"a=1", RECORD_WORDS - 1, Refusal::NoRecord, 0),
        (5, b"a[", 4 * RECORD_WORDS, Refusal::EndAfterOpening, 3),
        (5, b"a=1", RECORD_WORDS, Refusal::TooFewRecords, 4),
        (5, b"abc=1", 4 * RECORD_WORDS, Refusal::TooLittleText, 6),
    ];
    for (depth, input, words, refusal, place) in cases {
        let ticket = ticket(crate_config(depth, false), input);
        for names in [&["a"][..], &[]] {
            let laid = NamesBuf::of(names);
            let ((mut words, mut text), mut answers) = (lent(words, 2), laid.answers());
            let lent = Lent {
                records: &mut words,
                text: &mut text,
            };
            let fields = ticket.fields(&laid, lent, &mut answers);
            assert_eq!(fields.err(), Some(Refused { refusal, place }));
        }
    }
}

#[test]
#[should_panic(expected = "names of 4 GiB or more have no ends of 32 bits")]
fn names_that_no_end_reaches() {
    static MEBIBYTE: [u8; 1 << 20] = [0; 1 << 20];
    NamesBuf::of(&vec![&MEBIBYTE; 4_096]);
}

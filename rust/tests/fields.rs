//! Field reads, `qs_text` and `qs_list`: held against the crate's own deserializer (numbers, and
//! the bytes that offsets and lengths give) and against the model (every count, word and byte, any
//! name, and buffers of every small size). `COMPARE=whole` in the environment makes the random part
//! twenty times as large.

mod common;

use common::inputs::{fields_query, query, BYTES, NAMES};
use common::{
    crate_config, every_string, lent, outcome, parsed, part, random_config, random_crate_config,
    random_duplicates, reference_is_there, settings, times, Numbers, Random, BEFORE,
};
use model::{FieldOutcome, Outcome};
use qs::raw::{self, FieldRead};
use qs::DuplicateKeyBehavior::{self, Error, TakeLast};
use qs::{refusal, Config, Lent, Ticket, ELEMENT_WORDS, RECORD_WORDS};
use serde_qs_reference::{Key, Tree};

/// What a text read and a list read mean: bytes, or the refusal's number.
type Meant = (Result<Vec<u8>, u32>, Result<Vec<Vec<u8>>, u32>);

/// The buffers' sizes: words, bytes of text, and words of the list.
#[derive(Clone, Copy, Debug)]
struct Sizes {
    words: usize,
    bytes: usize,
    list: usize,
}

impl Sizes {
    /// They suffice for every input of so many bytes.
    fn ample(length: usize) -> Self {
        let (words, bytes) = qs::room(length);
        Sizes {
            words,
            bytes,
            list: 2 * (length + 1),
        }
    }

    fn buffers(self) -> (Vec<u32>, Vec<u8>, Vec<u32>) {
        let (words, text) = lent(self.words, self.bytes);
        (words, text, vec![BEFORE.into(); self.list])
    }
}

/// A field to read.
#[derive(Clone, Copy)]
struct Read<'a> {
    config: Config,
    duplicates: DuplicateKeyBehavior,
    input: &'a [u8],
    name: &'a [u8],
}

impl<'a> Read<'a> {
    fn ticket(self) -> Ticket<'a> {
        Ticket {
            input: self.input,
            config: self.config,
            duplicates: self.duplicates,
        }
    }

    /// What `qs_text` answers and leaves. It is lent no list.
    fn text(self, sizes: Sizes) -> FieldOutcome {
        let (mut words, mut text, _) = sizes.buffers();
        let lent = Lent {
            records: &mut words,
            text: &mut text,
        };
        let read = raw::text(self.ticket(), self.name, lent);
        field_outcome(read, words, text, Vec::new())
    }

    fn list(self, sizes: Sizes) -> FieldOutcome {
        let (mut words, mut text, mut list) = sizes.buffers();
        let lent = Lent {
            records: &mut words,
            text: &mut text,
        };
        let read = raw::list(self.ticket(), self.name, lent, &mut list);
        field_outcome(read, words, text, list)
    }

    fn model_text(self, sizes: Sizes) -> FieldOutcome {
        let (words, text, _) = sizes.buffers();
        let (config, duplicates) = self.model_settings();
        model::text(config, duplicates, self.input, self.name, &words, &text)
    }

    fn model_list(self, sizes: Sizes) -> FieldOutcome {
        let (words, text, list) = sizes.buffers();
        let (config, duplicates) = self.model_settings();
        model::list(
            config, duplicates, self.input, self.name, &words, &text, &list,
        )
    }

    fn model_settings(self) -> (model::Config, bool) {
        (settings(self.config), self.duplicates == Error)
    }

    /// The crate's text and list. Its names are text.
    fn reference(self) -> Meant {
        let name = std::str::from_utf8(self.name).expect("the crate's names are text");
        let Config { depth, form, .. } = self.config;
        let duplicates = self.duplicates == Error;
        (
            serde_qs_reference::text(self.input, depth as usize, form, duplicates, name),
            serde_qs_reference::list(self.input, depth as usize, form, duplicates, name),
        )
    }

    fn described(self) -> String {
        let Read {
            config,
            duplicates,
            input,
            name,
        } = self;
        format!(
            "{config:?} {duplicates:?} '{}' name '{}'",
            input.escape_ascii(),
            name.escape_ascii()
        )
    }
}

fn field_outcome(read: FieldRead, words: Vec<u32>, text: Vec<u8>, list: Vec<u32>) -> FieldOutcome {
    FieldOutcome {
        reading: outcome(read.reading, words, text),
        offset: read.offset,
        length: read.length,
        list,
    }
}

/// The text that an answer of `qs_text` means.
fn text_meant(outcome: &FieldOutcome) -> Result<Vec<u8>, u32> {
    match outcome.reading.number {
        refusal::ACCEPTED => {
            Ok(part(&outcome.reading.text, outcome.offset, outcome.length).to_vec())
        }
        number => Err(number),
    }
}

/// The list that an answer of `qs_list` means.
fn list_meant(outcome: &FieldOutcome) -> Result<Vec<Vec<u8>>, u32> {
    match outcome.reading.number {
        refusal::ACCEPTED => Ok(outcome
            .list
            .chunks_exact(ELEMENT_WORDS)
            .take(outcome.length as usize)
            .map(|word| part(&outcome.reading.text, word[0], word[1]).to_vec())
            .collect()),
        number => Err(number),
    }
}

/// How often each number was answered, by text reads and by list reads.
#[derive(Default)]
struct Counts {
    text: Numbers,
    list: Numbers,
}

impl Counts {
    /// With ample buffers: the crate's bytes or its refusal, and all that the model says.
    fn with_the_crate(&mut self, read: Read) {
        let sizes = Sizes::ample(read.input.len());
        let (text, list) = self.with_the_model(read, sizes);
        assert_eq!(
            (text_meant(&text), list_meant(&list)),
            read.reference(),
            "{}",
            read.described()
        );
    }

    /// With any buffers: all that the model says, and after a reading accepts its counts, words and
    /// text.
    fn with_the_model(&mut self, read: Read, sizes: Sizes) -> (FieldOutcome, FieldOutcome) {
        let (text, list) = (read.text(sizes), read.list(sizes));
        self.text.count(text.reading.number);
        self.list.count(list.reading.number);
        let described = || format!("{sizes:?} {}", read.described());
        assert_eq!(text, read.model_text(sizes), "{}", described());
        assert_eq!(list, read.model_list(sizes), "{}", described());
        let reading = parsed(read.config, read.input, sizes.words, sizes.bytes);
        for field in [&text, &list] {
            let number = field.reading.number;
            assert!(
                number == reading.number || reading.number == refusal::ACCEPTED,
                "{}",
                described()
            );
            let left = Outcome {
                number,
                ..reading.clone()
            };
            assert_eq!(field.reading, left, "{}", described());
        }
        (text, list)
    }

    fn report(&self, what: &str, text: &[u32], list: &[u32]) {
        self.text.report(&format!("{what}: text reads"), text);
        self.list.report(&format!("{what}: list reads"), list);
    }
}

#[test]
fn every_short_input() {
    if !reference_is_there() {
        return;
    }
    let mut counts = Counts::default();
    for (depth, form) in [(0, false), (1, true), (5, false)] {
        let config = crate_config(depth, form);
        every_string(BYTES, 4, |input| {
            for (duplicates, name) in [
                (TakeLast, &b"a"[..]),
                (Error, b"a"),
                (TakeLast, b"1"),
                (Error, b""),
            ] {
                counts.with_the_crate(Read {
                    config,
                    duplicates,
                    input,
                    name,
                });
            }
        });
    }
    counts.report(
        "every input of up to 4 bytes over 12, at 3 settings and 4 reads",
        &[0, 4, 5, 16, 17, 18, 19],
        &[0, 4, 5, 16, 17, 18],
    );
}

#[test]
fn random_and_damaged_inputs() {
    if !reference_is_there() {
        return;
    }
    let mut random = Random::new(21);
    let mut counts = Counts::default();
    let inputs = times(30_000);
    for turn in 0..inputs {
        let config = random_crate_config(&mut random);
        let duplicates = random_duplicates(&mut random);
        let pairs = 1 + random.below(8);
        let input = &match turn % 2 {
            0 => query(&mut random, pairs),
            _ => fields_query(&mut random, pairs),
        };
        for name in NAMES.map(str::as_bytes) {
            counts.with_the_crate(Read {
                config,
                duplicates,
                input,
                name,
            });
        }
    }
    println!("{inputs} inputs, {} names each", NAMES.len());
    let all = [0, 4, 5, 6, 7, 8, 9, 10, 11, 12, 13, 16, 17, 18, 19, 21];
    counts.report(
        "random and damaged inputs",
        &all,
        &[&all[..], &[20]].concat(),
    );
}

/// Names of any bytes, which the crate can't be asked for, and buffers of any size.
#[test]
fn random_names_and_buffers() {
    let mut random = Random::new(22);
    let mut counts = Counts::default();
    for _ in 0..times(50_000) {
        let config = random_config(&mut random);
        let duplicates = random_duplicates(&mut random);
        let pairs = 1 + random.below(6);
        let input = fields_query(&mut random, pairs);
        let name = match random.below(5) {
            0 => vec![0xFF],
            1 => random.bytes(1),
            2 => b"a".to_vec(),
            _ => NAMES[random.below(NAMES.len())].into(),
        };
        let read = Read {
            config,
            duplicates,
            input: &input,
            name: &name,
        };
        let sizes = Sizes {
            words: random.below(18 * RECORD_WORDS),
            bytes: random.below(24),
            list: random.below(12),
        };
        counts.with_the_model(read, sizes);
        let list = random.below(12);
        counts.with_the_model(
            read,
            Sizes {
                list,
                ..Sizes::ample(input.len())
            },
        );
    }
    let all = [
        0, 3, 4, 5, 6, 7, 8, 9, 10, 11, 12, 13, 14, 15, 16, 17, 18, 19, 21,
    ];
    counts.report(
        "random names and buffers",
        &all,
        &[&all[..], &[20, 22]].concat(),
    );
}

/// A list's slice around two words an element; 22 comes before anything about an element.
#[test]
fn slices_of_a_list() {
    let mut counts = Counts::default();
    let inputs: [(&[u8], usize); 10] = [
        (b"a", 0),
        (b"a=", 0),
        (b"a=1", 1),
        (b"a[]", 1),
        (b"a[]=1&a[]=2&a[]", 3),
        (b"a[0]=1&a[1]&a[2]=3", 3),
        (b"a[1]=1&a[3]=3", 2),
        (b"a[0][b]=1", 1),
        (b"a[]=%FF", 1),
        (b"a[0]=1&a[0]=2", 1),
    ];
    for (input, elements) in inputs {
        for duplicates in [TakeLast, Error] {
            for list in 0..2 * elements + 4 {
                let read = Read {
                    config: Config::default(),
                    duplicates,
                    input,
                    name: b"a",
                };
                let sizes = Sizes {
                    list,
                    ..Sizes::ample(input.len())
                };
                let (_, answer) = counts.with_the_model(read, sizes);
                let short = list < 2 * elements;
                let refused = answer.reading.number == refusal::SHORT_SLICE;
                assert_eq!(refused, short, "{}", read.described());
            }
        }
    }
    counts.report(
        "slices around two words an element",
        &[0, 18, 19, 21],
        &[0, 18, 19, 20, 21, 22],
    );
}

/// 22 comes after the field's own kind.
#[test]
fn a_field_of_the_wrong_kind_with_any_slice() {
    let mut counts = Counts::default();
    let read = Read {
        config: Config::default(),
        duplicates: TakeLast,
        input: b"a[b]=1&a[c]=2",
        name: b"a",
    };
    for list in 0..6 {
        let sizes = Sizes {
            list,
            ..Sizes::ample(read.input.len())
        };
        let (_, answer) = counts.with_the_model(read, sizes);
        assert_eq!(answer.reading.number, refusal::WRONG_KIND);
    }
}

/// Refusals 1 to 3 leave every buffer as it was.
#[test]
fn untouched_buffers() {
    let long = [b'&'; qs::MAX_LEN + 1];
    let deep = crate_config(qs::MAX_DEPTH + 1, false);
    let cases: [(Config, &[u8], usize, u32); 3] = [
        (deep, b"a=1", 8 * RECORD_WORDS, refusal::TOO_DEEP),
        (
            Config::default(),
            &long,
            8 * RECORD_WORDS,
            refusal::TOO_LONG,
        ),
        (
            Config::default(),
            b"a=1",
            RECORD_WORDS - 1,
            refusal::NO_RECORD,
        ),
    ];
    let mut counts = Counts::default();
    for (config, input, words, number) in cases {
        for duplicates in [TakeLast, Error] {
            let read = Read {
                config,
                duplicates,
                input,
                name: b"a",
            };
            let sizes = Sizes {
                words,
                bytes: 8,
                list: 4,
            };
            let (text, list) = counts.with_the_model(read, sizes);
            assert_eq!((text.reading.number, list.reading.number), (number, number));
            let left = (list.reading.words, list.reading.text, list.list);
            assert_eq!(left, sizes.buffers());
        }
    }
}

/// What both reads mean at the usual settings, with ample buffers.
fn read(input: &[u8], name: &[u8], duplicates: DuplicateKeyBehavior) -> Meant {
    let read = Read {
        config: Config::default(),
        duplicates,
        input,
        name,
    };
    let sizes = Sizes::ample(input.len());
    (text_meant(&read.text(sizes)), list_meant(&read.list(sizes)))
}

/// The rules for texts (READING, 'Field reads'), one by one.
#[test]
fn named_texts() {
    let text = |input: &str, name: &str, duplicates| {
        let (text, _) = read(input.as_bytes(), name.as_bytes(), duplicates);
        text.map(|text| String::from_utf8(text).expect("a text"))
    };
    assert_eq!(text("a=1&b=2", "b", TakeLast), Ok("2".into()));
    assert_eq!(text("a=1&a=2", "a", TakeLast), Ok("2".into()));
    assert_eq!(text("a=1&a=2", "a", Error), Err(19));
    assert_eq!(text("a[]=1", "a", Error), Ok("1".into()));
    assert_eq!(text("a=1&a", "a", TakeLast), Ok("".into()));
    assert_eq!(text("a=1&b[c]=2", "b", TakeLast), Err(18));
    assert_eq!(text("%31=x", "1", TakeLast), Ok("x".into()));
    assert_eq!(text("", "a", TakeLast), Err(17));
    assert_eq!(text("=", "", TakeLast), Err(17));
    assert_eq!(text("=x", "a", TakeLast), Err(17));
    assert_eq!(text("[a]=x", "a", TakeLast), Ok("x".into()));
    assert_eq!(text("&&", "a", TakeLast), Err(16));
    assert_eq!(text("[]=x", "", TakeLast), Err(16));
    assert_eq!(text("a=%C3", "a", TakeLast), Err(21));
    assert_eq!(text("a=%C3&a=1", "a", TakeLast), Ok("1".into()));
    assert_eq!(text("a=%C3&a=1", "a", Error), Err(19));
}

/// The rules for lists (READING, 'Field reads'), one by one.
#[test]
fn named_lists() {
    let list = |input: &str, name: &str, duplicates| {
        let (_, list) = read(input.as_bytes(), name.as_bytes(), duplicates);
        let text = |bytes| String::from_utf8(bytes).expect("a text");
        list.map(|list| list.into_iter().map(text).collect::<Vec<_>>())
    };
    let texts = |texts: &[&str]| Ok(texts.iter().map(|text| text.to_string()).collect());
    assert_eq!(list("a", "a", TakeLast), texts(&[]));
    assert_eq!(list("a=1", "a", TakeLast), texts(&["1"]));
    assert_eq!(list("a=1&a=2", "a", Error), texts(&["1", "2"]));
    assert_eq!(list("a[1]=y&a[0]=x", "a", TakeLast), texts(&["x", "y"]));
    assert_eq!(list("a[0]=x&a[2]=y", "a", TakeLast), Err(20));
    assert_eq!(list("a[0]=x&a[b]=y", "a", TakeLast), Err(18));
    assert_eq!(list("a[0]=x&a[0]=y", "a", TakeLast), texts(&["y"]));
    assert_eq!(list("a[0]=x&a[0]=y", "a", Error), Err(19));
    assert_eq!(list("a[0][b]=x&a[2]=y", "a", TakeLast), Err(18));
    assert_eq!(list("a[]=%C3", "a", TakeLast), Err(21));
    assert_eq!(list("=x", "", TakeLast), texts(&["x"]));
}

// The four classes of reads in which a derived struct differs from ours, with the smallest input of
// each (docs/DIFFERENCES.md).

/// An Int key is no name here; a struct compares its names with the decimal of an Int key too.
#[test]
fn a_struct_takes_an_int_key_for_a_name() {
    if !reference_is_there() {
        return;
    }
    for (input, value) in [("1", ""), ("1=x", "x")] {
        let (input, value) = (input.as_bytes(), value.as_bytes().to_vec());
        assert_eq!(read(input, b"1", TakeLast), (Err(17), Err(17)));
        let list = match value.is_empty() {
            true => Vec::new(),
            false => vec![value.clone()],
        };
        assert_eq!(struct_reads(input, "1"), (Ok(value), Ok(list)));
    }
}

/// Neither a text nor a list is had through a struct.
fn assert_struct_refuses(input: &[u8], name: &str, why: &str) {
    let refused = (Err(why.to_owned()), Err(why.to_owned()));
    assert_eq!(struct_reads(input, name), refused);
}

/// Beside the String key `1` a struct meets the Int key 1 as the same name again.
#[test]
fn a_struct_refuses_an_int_key_beside_its_name() {
    if !reference_is_there() {
        return;
    }
    assert_eq!(read(b"1&%31", b"1", TakeLast), (Ok(vec![]), Ok(vec![])));
    assert_struct_refuses(b"1&%31", "1", "duplicate field `1`");
}

/// A struct reads every key, so that one which isn't UTF-8 fails it.
#[test]
fn a_struct_refuses_another_key_that_is_not_utf8() {
    if !reference_is_there() {
        return;
    }
    assert_eq!(read(b"a&%ff", b"a", TakeLast), (Ok(vec![]), Ok(vec![])));
    assert_struct_refuses(
        b"a&%ff",
        "a",
        "invalid utf-8 sequence of 1 bytes from index 0",
    );
}

/// A String root is a map of the empty name for `deserialize_map`, and none for a struct.
#[test]
fn a_struct_refuses_a_string_root() {
    if !reference_is_there() {
        return;
    }
    assert_eq!(
        read(b"=x", b"", TakeLast),
        (Ok(b"x".to_vec()), Ok(vec![b"x".to_vec()]))
    );
    assert_struct_refuses(b"=x", "", "invalid type: string \"x\", expected struct");
}

/// What a derived struct gets for its field, as a text and as a list.
fn struct_reads(input: &[u8], name: &str) -> StructReads {
    (
        serde_qs_reference::struct_text(input, name),
        serde_qs_reference::struct_list(input, name),
    )
}

type StructReads = (Result<Vec<u8>, String>, Result<Vec<Vec<u8>>, String>);

/// The class of a read by its number in the order above, if it is of any.
fn class(input: &[u8], name: &[u8]) -> Option<usize> {
    let config = Config::default();
    let tree = serde_qs_reference::parse(input, config.depth as usize, config.form).ok()?;
    let entries = match tree {
        Tree::String(_) if name.is_empty() => return Some(3),
        Tree::Map(entries) => entries,
        _ => return None,
    };
    let has = |test: &dyn Fn(&Key) -> bool| entries.iter().any(|(key, _)| test(key));
    let int = has(&|key| matches!(key, Key::Int(int) if int.to_string().as_bytes() == name));
    let named = has(&|key| matches!(key, Key::String(bytes) if bytes == name));
    let broken =
        has(&|key| matches!(key, Key::String(bytes) if std::str::from_utf8(bytes).is_err()));
    match (int, named) {
        (true, false) => Some(0),
        (true, true) => Some(1),
        (false, true) if broken => Some(2),
        (false, _) => None,
    }
}

/// The class of a read in which the two differ: one gets bytes that the other doesn't.
fn difference(input: &[u8], name: &str) -> Option<usize> {
    let ours = read(input, name.as_bytes(), TakeLast);
    let theirs = struct_reads(input, name);
    if (ours.0.ok(), ours.1.ok()) == (theirs.0.ok(), theirs.1.ok()) {
        return None;
    }
    let class = class(input, name.as_bytes());
    assert!(class.is_some(), "'{}' name '{name}'", input.escape_ascii());
    class
}

#[test]
fn a_struct_differs_in_these_classes_only() {
    if !reference_is_there() {
        return;
    }
    let mut differences = [0; 4];
    let mut smallest = [usize::MAX; 4];
    every_string(b"a1&=%3f[]", 5, |input| {
        for class in ["a", "1", ""]
            .iter()
            .filter_map(|name| difference(input, name))
        {
            differences[class] += 1;
            smallest[class] = smallest[class].min(input.len());
        }
    });
    assert_eq!(smallest, [1, 5, 5, 2]);
    let mut random = Random::new(23);
    for _ in 0..times(10_000) {
        let pairs = 1 + random.below(8);
        let input = fields_query(&mut random, pairs);
        for class in NAMES.iter().filter_map(|name| difference(&input, name)) {
            differences[class] += 1;
        }
    }
    println!("a derived struct differs {differences:?} times, in four classes");
}

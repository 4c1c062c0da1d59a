//! Zeros in front of a number where they count (READING, 'Keys'): `7`, `07` and `007` are three
//! keys then, a number and two strings. Every call is held against the model; readings and writings
//! also against the crate, which hasn't the setting: with the first `0` of each such key written as
//! an escape it reads what we read. `COMPARE=whole` in the environment makes the random part twenty
//! times as large.

mod common;

use common::writes::{written, Counts as Writings};
use common::{
    both_zeros, crate_config, every_list, every_string, laid_out, lent, outcome, parsed,
    random_config, random_duplicates, reference_is_there, settings, ticket, times, tree, Numbers,
    Random, BEFORE,
};
use model::{FieldOutcome, FieldsOutcome, Outcome, SheetOutcome};
use qs::DuplicateKeyBehavior::{self, Error, TakeLast};
use qs::{raw, refusal, row, Buffers, Config, Lent, Names, Ticket, ANSWER_WORDS, RECORD_WORDS};
use serde_qs_reference::{Key, Tree};
use std::ops::Range;

/// Bytes that tell keys of digits from others and where they end.
const BYTES: &[u8] = b"07a[]&=%3";

/// The usual settings with zeros not counting.
fn off() -> Config {
    Config::default()
}

/// The usual settings with zeros counting.
fn on() -> Config {
    counting(5, false)
}

/// Settings with zeros counting.
fn counting(depth: u32, form: bool) -> Config {
    let zeros = true;
    Config { depth, form, zeros }
}

/// Depths 0 to 3 with the form flag off and on, and zeros counting.
fn configs() -> impl Iterator<Item = Config> {
    (0..4).flat_map(|depth| [false, true].map(|form| counting(depth, form)))
}

/// The start of an input, for a message.
fn shown(config: Config, input: &[u8]) -> String {
    let start = input[..input.len().min(200)].escape_ascii();
    format!("{config:?} '{start}'")
}

// Tickets by hand, with all that is answered and left.

/// An accepted reading in so many words and bytes, by its records and its text.
fn accepted(records: &[[u32; RECORD_WORDS]], text: &[u8], words: usize, bytes: usize) -> Outcome {
    let mut outcome = Outcome {
        number: refusal::ACCEPTED,
        place: 0,
        records: records.len() as u32,
        bytes: text.len() as u32,
        words: records.concat(),
        text: text.to_vec(),
    };
    outcome.words.resize(words, 0);
    outcome.text.resize(bytes, 0);
    outcome
}

/// A reading that is refused once it has begun.
fn refused(number: u32, place: u32, words: usize, bytes: usize) -> Outcome {
    Outcome {
        number,
        place,
        ..accepted(&[], b"", words, bytes)
    }
}

/// A lone key, with zeros not counting and counting: its kind, its value or offset, its length, and
/// the text.
#[test]
fn lone_keys() {
    let int = |value| ([row::INT_KEY, value, 0], "");
    let string = |text: &'static str| ([row::STRING_KEY, 0, text.len() as u32], text);
    for (input, expected) in [
        ("0", [int(0), int(0)]),
        ("7", [int(7), int(7)]),
        ("70", [int(70), int(70)]),
        ("00", [int(0), string("00")]),
        ("07", [int(7), string("07")]),
        ("007", [int(7), string("007")]),
        ("%30", [string("0"), string("0")]),
        ("%307", [string("07"), string("07")]),
        ("0%37", [string("07"), string("07")]),
        ("0a", [string("0a"), string("0a")]),
        ("04294967295", [int(u32::MAX), string("04294967295")]),
        (
            "04294967296",
            [string("04294967296"), string("04294967296")],
        ),
    ] {
        for (config, (key, text)) in [off(), on()].into_iter().zip(expected) {
            let root = [row::MAP, 0, 0, 0, 0, 0, 1, 0];
            let [kind, value, length] = key;
            let child = [row::NO_VALUE, kind, value, length, 0, 0, 0, 0];
            let got = parsed(config, input.as_bytes(), 3 * RECORD_WORDS, 12);
            let expected = accepted(&[root, child], text.as_bytes(), 3 * RECORD_WORDS, 12);
            assert_eq!(got, expected, "{}", shown(config, input.as_bytes()));
        }
    }
}

/// A number needs no text, and a string does.
#[test]
fn no_text_for_a_key() {
    let two = 2 * RECORD_WORDS;
    let root = [row::MAP, 0, 0, 0, 0, 0, 1, 0];
    let number = |value| [row::NO_VALUE, row::INT_KEY, value, 0, 0, 0, 0, 0];
    for (input, value) in [("07", 7), ("00", 0)] {
        let off = parsed(off(), input.as_bytes(), two, 0);
        assert_eq!(off, accepted(&[root, number(value)], b"", two, 0));
        for bytes in [0, 1] {
            let on = parsed(on(), input.as_bytes(), two, bytes);
            assert_eq!(on, refused(refusal::TOO_LITTLE_TEXT, 3, two, bytes));
        }
        assert_eq!(parsed(on(), input.as_bytes(), two, 2).number, 0);
    }
    for (input, value) in [("0", 0), ("7", 7)] {
        let on = parsed(on(), input.as_bytes(), two, 0);
        assert_eq!(on, accepted(&[root, number(value)], b"", two, 0));
    }
    // in brackets, behind a name of one byte
    let three = 3 * RECORD_WORDS;
    assert_eq!(parsed(off(), b"a[07]", three, 1).number, 0);
    let short = refused(refusal::TOO_LITTLE_TEXT, 6, three, 2);
    assert_eq!(parsed(on(), b"a[07]", three, 2), short);
    assert_eq!(parsed(on(), b"a[07]", three, 3).number, 0);
}

/// `007` and `7` are one folder or two.
#[test]
fn one_folder_or_two() {
    let (input, words, bytes) = (b"007=1&7[b]=2", 5 * RECORD_WORDS, 8);
    let clash = refused(refusal::MAP_ON_STRING, 9, words, bytes);
    assert_eq!(parsed(off(), input, words, bytes), clash);
    let two = [
        [row::MAP, 0, 0, 0, 0, 0, 2, 0],
        [row::STRING, row::STRING_KEY, 0, 3, 3, 1, 0, 0],
        [row::MAP, row::INT_KEY, 7, 0, 0, 0, 3, 1],
        [row::STRING, row::STRING_KEY, 4, 1, 5, 1, 0, 0],
    ];
    let folders = accepted(&two, b"0071b2", words, bytes);
    assert_eq!(parsed(on(), input, words, bytes), folders);
}

/// What an accepted input means.
fn meant(config: Config, input: &[u8]) -> Tree {
    let (words, bytes) = qs::room(input.len());
    let read = parsed(config, input, words, bytes);
    assert_eq!(read.number, refusal::ACCEPTED, "{}", shown(config, input));
    tree(&read.words, &read.text)
}

fn string_key(name: &str) -> Key {
    Key::String(name.into())
}

/// Maps in each other, each with the key given, and the value in the last.
fn nested(keys: &[Key], value: Tree) -> Tree {
    let wrapped = |below, key: &Key| Tree::Map(vec![(key.clone(), below)]);
    keys.iter().rev().fold(value, wrapped)
}

/// Wherever a key stands; one at the depth has a `[` in front and was a string all along.
#[test]
fn every_place_of_a_key() {
    let (one, form) = (counting(1, false), counting(5, true));
    let [a, b, padded, kept] = ["a", "b", "07", "[07]"].map(string_key);
    let v = || Tree::String(b"v".to_vec());
    for (config, input, keys) in [
        (on(), "07=v", vec![padded.clone()]),
        (on(), "&[07]=v", vec![padded.clone()]),
        (on(), "07[b]=v", vec![padded.clone(), b.clone()]),
        (on(), "a[07]=v", vec![a.clone(), padded.clone()]),
        (form, "a%5B07%5D=v", vec![a.clone(), padded.clone()]),
        (one, "a[07]=v", vec![a.clone(), padded.clone()]),
        (on(), "a[07][7]=v", vec![a.clone(), padded, Key::Int(7)]),
        (on(), "a[0][b]=v", vec![a.clone(), Key::Int(0), b.clone()]),
        (one, "a[b][07]=v", vec![a, b, kept.clone()]),
        (counting(0, false), "[07]=v", vec![kept]),
        (counting(0, false), "07[0]=v", vec![string_key("07[0]")]),
    ] {
        let got = meant(config, input.as_bytes());
        assert_eq!(
            got,
            nested(&keys, v()),
            "{}",
            shown(config, input.as_bytes())
        );
    }
    let elements = meant(on(), b"07[]=v&7=v&07[]=v");
    let both = vec![
        (Key::Int(7), v()),
        (string_key("07"), Tree::Sequence(vec![v(), v()])),
    ];
    assert_eq!(elements, Tree::Map(both));
}

/// A map of numbers alone is a list, and one padded key makes it none.
#[test]
fn a_list_of_two() {
    let input = b"a[0]=x&a[01]=y";
    let (words, bytes) = (4 * RECORD_WORDS, 5);
    let first = [row::STRING, row::INT_KEY, 0, 0, 1, 1, 0, 3];
    let heads = [[1, 0, 0, 0, 0, 0, 1, 0], [1, 2, 0, 1, 0, 0, 2, 0]];
    let last = |key: [u32; 3], text| [row::STRING, key[0], key[1], key[2], text, 1, 0, 0];
    let records = [heads[0], heads[1], first, last([row::INT_KEY, 1, 0], 2)];
    let read = |config| read_list(config, TakeLast, input, b"a", (words, bytes, 6));
    let list = FieldOutcome {
        reading: accepted(&records, b"axy", words, bytes),
        offset: 0,
        length: 2,
        list: vec![1, 1, 2, 1, 0, 0],
    };
    assert_eq!(read(off()), list);
    let records = [heads[0], heads[1], first, last([row::STRING_KEY, 2, 2], 4)];
    let wrong_kind = FieldOutcome {
        reading: Outcome {
            number: refusal::WRONG_KIND,
            ..accepted(&records, b"ax01y", words, bytes)
        },
        length: 0,
        list: vec![0; 6],
        ..list
    };
    assert_eq!(read(on()), wrong_kind);
}

/// A padded key is a name where zeros count.
#[test]
fn a_padded_name() {
    for (name, number) in [("07", 0), ("7", refusal::NO_SUCH_FIELD)] {
        let read = |config| {
            let sizes = (3 * RECORD_WORDS, 6, 0);
            let read = read_text(config, TakeLast, b"07=x&7=y", name.as_bytes(), sizes);
            (read.reading.number, read.offset, read.length)
        };
        let part = if number == 0 { (2, 1) } else { (0, 0) };
        assert_eq!(read(on()), (number, part.0, part.1));
        // one number with two values, which take four records
        assert_eq!(read(off()).0, refusal::TOO_FEW_RECORDS);
    }
}

/// A string key is escaped only where it would be a number; what is written is read back too.
#[test]
fn written_keys() {
    if !reference_is_there() {
        return;
    }
    for (input, escaped, as_it_is) in [
        ("007=a", "7=a", "007=a"),
        ("00=a", "0=a", "00=a"),
        ("0=a", "0=a", "0=a"),
        ("%37=a", "%37=a", "%37=a"),
        ("%30=a", "%30=a", "%30=a"),
        ("%3007=a", "%3007=a", "007=a"),
        ("%300=a", "%300=a", "00=a"),
        ("b[007]=a", "b[7]=a", "b[007]=a"),
        ("b[%3007]=a", "b[%3007]=a", "b[007]=a"),
        ("b[%30]=a", "b[%30]=a", "b[%30]=a"),
        ("04294967296=a", "04294967296=a", "04294967296=a"),
        ("%304294967295=a", "%304294967295=a", "04294967295=a"),
        ("7=a&07=b&007=c", "7[]=a&7[]=b&7[]=c", "7=a&007=c&07=b"),
        ("00&0&000", "0[]&0[]&0[]", "0&00&000"),
    ] {
        for (config, ticket) in [(off(), escaped), (on(), as_it_is)] {
            let got = written(config, input.as_bytes());
            assert_eq!(got.escape_ascii().to_string(), ticket, "{config:?} {input}");
        }
    }
}

// Every call, held against the model.

/// Words, bytes of text, and words or bytes of what the call fills besides.
type Sizes = (usize, usize, usize);

/// Sizes that suffice for every input of so many bytes, with so much besides.
fn ample(length: usize, besides: usize) -> Sizes {
    let (words, bytes) = qs::room(length);
    (words, bytes, besides)
}

/// Compares a reading with the model's, and gives it.
fn read(config: Config, input: &[u8], words: usize, bytes: usize) -> Outcome {
    let got = parsed(config, input, words, bytes);
    let (before, text) = lent(words, bytes);
    let expected = model::read(settings(config), input, &before, &text);
    let same = got == expected;
    assert!(same, "{words} words, {bytes}: {}", shown(config, input));
    got
}

/// Compares a text read with the model's, and gives it.
fn read_text(
    config: Config,
    duplicates: DuplicateKeyBehavior,
    input: &[u8],
    name: &[u8],
    (words, bytes, _): Sizes,
) -> FieldOutcome {
    let (mut records, mut text) = lent(words, bytes);
    let refuses = duplicates == Error;
    let expected = model::text(settings(config), refuses, input, name, &records, &text);
    let ticket = Ticket {
        input,
        config,
        duplicates,
    };
    let lent = Lent {
        records: &mut records,
        text: &mut text,
    };
    let read = raw::text(ticket, name, lent);
    let got = FieldOutcome {
        reading: outcome(read.reading, records, text),
        offset: read.offset,
        length: read.length,
        list: Vec::new(),
    };
    assert_eq!(got, expected, "{name:?} {}", shown(config, input));
    got
}

/// Compares a list read with the model's, and gives it.
fn read_list(
    config: Config,
    duplicates: DuplicateKeyBehavior,
    input: &[u8],
    name: &[u8],
    (words, bytes, besides): Sizes,
) -> FieldOutcome {
    let (mut records, mut text) = lent(words, bytes);
    let mut list = vec![BEFORE.into(); besides];
    let (to, refuses) = (settings(config), duplicates == Error);
    let expected = model::list(to, refuses, input, name, &records, &text, &list);
    let ticket = Ticket {
        input,
        config,
        duplicates,
    };
    let lent = Lent {
        records: &mut records,
        text: &mut text,
    };
    let read = raw::list(ticket, name, lent, &mut list);
    let got = FieldOutcome {
        reading: outcome(read.reading, records, text),
        offset: read.offset,
        length: read.length,
        list,
    };
    assert_eq!(got, expected, "{name:?} {}", shown(config, input));
    got
}

/// Compares a read of many names with the model's, and gives it.
fn read_fields(
    config: Config,
    duplicates: DuplicateKeyBehavior,
    input: &[u8],
    names: &[&str],
    (words, bytes, besides): Sizes,
) -> FieldsOutcome {
    let (laid, ends) = laid_out(names);
    let (bytes_of, ends) = (&laid[..], &ends[..]);
    let (mut records, mut text) = lent(words, bytes);
    let mut answers = vec![BEFORE.into(); besides];
    let of_the_model = model::Names {
        bytes: bytes_of,
        ends,
    };
    let (to, refuses) = (settings(config), duplicates == Error);
    let expected = model::fields(to, refuses, input, of_the_model, &records, &text, &answers);
    let names = Names {
        bytes: bytes_of,
        ends,
    };
    let ticket = Ticket {
        input,
        config,
        duplicates,
    };
    let lent = Lent {
        records: &mut records,
        text: &mut text,
    };
    let reading = raw::fields(ticket, names, lent, &mut answers);
    let reading = outcome(reading, records, text);
    let got = FieldsOutcome { reading, answers };
    assert_eq!(got, expected, "{}", shown(config, input));
    got
}

/// Compares a sheet with the model's, and gives it.
fn print_sheet(config: Config, input: &[u8], (words, bytes, besides): Sizes) -> SheetOutcome {
    let (mut records, mut text) = lent(words, bytes);
    let mut page = vec![BEFORE; besides];
    let expected = model::sheet(settings(config), input, &records, &text, &page);
    let lent = Lent {
        records: &mut records,
        text: &mut text,
    };
    let reading = raw::sheet(ticket(config, input), lent, &mut page);
    let reading = outcome(reading, records, text);
    let got = SheetOutcome { reading, page };
    assert!(got == expected, "the sheet of {}", shown(config, input));
    got
}

/// Names that inputs of a few digits have, or nearly.
const NAMES: [&str; 6] = ["07", "7", "00", "0", "a", ""];

/// Compares all reads of fields, the sheet and the writing of an input, which is read back. Gives
/// the numbers that came.
fn every_call(writings: &mut Writings, config: Config, input: &[u8]) -> Vec<u32> {
    let mut numbers = Vec::new();
    let sizes = |besides| ample(input.len(), besides);
    for duplicates in [TakeLast, Error] {
        for name in NAMES.map(str::as_bytes) {
            let text = read_text(config, duplicates, input, name, sizes(0));
            let ample = qs::list_room(input.len());
            let list = read_list(config, duplicates, input, name, sizes(ample));
            let short = read_list(config, duplicates, input, name, sizes(1));
            numbers.extend([&text, &list, &short].map(|read| read.reading.number));
        }
        let answers = sizes(ANSWER_WORDS * NAMES.len() + 1);
        let fields = read_fields(config, duplicates, input, &NAMES, answers);
        numbers.push(fields.reading.number);
    }
    for page in [qs::sheet_room(input.len()), qs::SHEET_LINE] {
        numbers.push(print_sheet(config, input, sizes(page)).reading.number);
    }
    numbers.push(writings.around(config, input).reading.number);
    numbers
}

#[test]
fn every_short_input() {
    let mut counts = Numbers::default();
    for config in configs() {
        let mut check = |input: &[u8]| {
            let (words, bytes) = qs::room(input.len());
            counts.count(read(config, input, words, bytes).number);
        };
        every_string(BYTES, 5, &mut check);
        every_string(b"07[]&=", 6, &mut check);
    }
    counts.report(
        "every input of up to 5 bytes over 9 and 6 over 6, at 8 settings",
        &[0, 4, 5, 6, 8, 9, 10, 11, 12, 13],
    );
}

#[test]
fn every_small_buffer() {
    let mut counts = Numbers::default();
    for config in configs() {
        every_string(b"07a[]&=", 4, |input| {
            for words in [1, 2, 3, 4].map(|records| records * RECORD_WORDS) {
                for bytes in 0..5 {
                    counts.count(read(config, input, words, bytes).number);
                }
            }
        });
    }
    counts.report(
        "every input of up to 4 bytes over 7, in 20 sizes",
        &[0, 4, 5, 14, 15],
    );
}

#[test]
fn every_call_of_short_inputs() {
    let (mut counts, mut writings) = (Numbers::default(), Writings::default());
    for config in configs() {
        let mut check = |input: &[u8]| {
            for number in every_call(&mut writings, config, input) {
                counts.count(number);
            }
        };
        every_string(BYTES, 3, &mut check);
        every_string(b"07[]&=", 4, &mut check);
    }
    writings.report("every short input", &[0, 4, 5, 26]);
    counts.report(
        "every call of every input of up to 3 bytes over 9 and 4 over 6",
        &[0, 4, 5, 16, 17, 19, 22, 23],
    );
}

/// Pairs that meet in the same maps, read and written.
#[test]
fn every_call_of_lists_of_pairs() {
    const PAIRS: [&[u8]; 16] = [
        b"7",
        b"07=",
        b"07=v",
        b"%3007=v",
        b"0",
        b"00",
        b"%30=v",
        b"07[7]",
        b"07[07]=v",
        b"07[]",
        b"a[0]=v",
        b"a[1]",
        b"a[01]=v",
        b"a[%301]",
        b"a[00]=v",
        b"a",
    ];
    let (mut counts, mut writings) = (Numbers::default(), Writings::default());
    for config in [counting(0, false), counting(1, true), on()] {
        every_list(&PAIRS, 3, b"&", |input| {
            for number in every_call(&mut writings, config, input) {
                counts.count(number);
            }
        });
    }
    writings.report("lists of pairs", &[0, 6, 7, 8, 9, 10, 26]);
    counts.report(
        "every call of lists of pairs",
        &[0, 6, 7, 8, 9, 10, 17, 18, 19, 20, 22, 23],
    );
}

/// So many pairs, of keys of digits with zeros in front and without, raw and escaped, and a few
/// others.
fn folders(random: &mut Random, pairs: usize) -> Vec<u8> {
    const KEYS: [&[u8]; 16] = [
        b"7",
        b"07",
        b"007",
        b"%37",
        b"%307",
        b"0%37",
        b"0",
        b"00",
        b"000",
        b"%30",
        b"1",
        b"01",
        b"a",
        b"",
        b"04294967296",
        b"0a",
    ];
    const ENDS: [&[u8]; 7] = [b"", b"=", b"=v", b"=07", b"[]", b"[]=v", b"x"];
    let few = 1 + random.below(KEYS.len());
    let mut one = || {
        let mut pair = KEYS[random.below(few)].to_vec();
        for _ in 0..random.below(4) {
            let (open, close): (&[u8], &[u8]) = match random.below(5) {
                0 => (b"%5B", b"%5D"),
                _ => (b"[", b"]"),
            };
            pair.extend([open, KEYS[random.below(few)], close].concat());
        }
        // the last one seldom, since behind a bracket it is refused
        let ends = ENDS.len() - usize::from(random.below(4) > 0);
        pair.extend(ENDS[random.below(ends)]);
        pair
    };
    let pairs: Vec<Vec<u8>> = (0..pairs).map(|_| one()).collect();
    pairs.join(&b'&')
}

/// Such an input, in one case out of four cut off or damaged.
fn some_folders(random: &mut Random) -> Vec<u8> {
    let pairs = 1 + random.below(7);
    let mut input = folders(random, pairs);
    match random.below(8) {
        0 => random.damage(&mut input),
        1 => input.truncate(random.below(input.len() + 1)),
        _ => {}
    }
    input
}

/// Any settings with zeros counting.
fn random_counting(random: &mut Random) -> Config {
    let zeros = true;
    Config {
        zeros,
        ..random_config(random)
    }
}

#[test]
fn every_call_of_random_inputs() {
    let mut random = Random::new(71);
    let (mut counts, mut writings) = (Numbers::default(), Writings::default());
    for _ in 0..times(5_000) {
        let config = random_counting(&mut random);
        let input = some_folders(&mut random);
        for number in every_call(&mut writings, config, &input) {
            counts.count(number);
        }
        let (words, bytes) = (random.below(12 * RECORD_WORDS), random.below(16));
        counts.count(read(config, &input, words, bytes).number);
        let duplicates = random_duplicates(&mut random);
        let name = NAMES[random.below(NAMES.len())].as_bytes();
        let sizes = (words, bytes, random.below(12));
        counts.count(
            read_list(config, duplicates, &input, name, sizes)
                .reading
                .number,
        );
    }
    writings.report("random inputs", &[0, 4, 5, 6, 7, 8, 9, 10, 11, 12, 13, 26]);
    let all: Vec<u32> = (3..16).chain([0, 17, 18, 19, 20, 22, 23]).collect();
    counts.report("every call of random inputs", &all);
}

// The crate, which hasn't the setting.

/// Where a byte of an input stands.
#[derive(Clone, Copy)]
enum At {
    /// In a key of the root.
    Root,
    /// In brackets that nest.
    Inside,
    /// Behind brackets.
    Behind,
    /// In a key at the depth, where brackets are kept.
    Kept,
    Value,
}
use At::{Behind, Inside, Kept, Root, Value};

/// Where an input is after a mark, or nothing where the byte is no mark there. At the end it is as
/// after an `&`.
fn after(at: At, byte: u8, nests: bool) -> Option<At> {
    match (at, byte) {
        (Inside, b']') => Some(Behind),
        (Inside, _) => None,
        (_, b'&') => Some(Root),
        (Value, _) => None,
        (_, b'=') => Some(Value),
        (Root | Behind, b'[') if nests => Some(Inside),
        (Behind, b'[') => Some(Kept),
        _ => None,
    }
}

/// The byte at the front and how many it takes; an `&` for the end.
fn front(form: bool, rest: &[u8]) -> (u8, usize) {
    match rest {
        [b'%', b'5', b'B', ..] if form => (b'[', 3),
        [b'%', b'5', b'D', ..] if form => (b']', 3),
        [byte, ..] => (*byte, 1),
        [] => (b'&', 1),
    }
}

/// Whether a raw key is digits alone, with a zero in front that it could do without.
fn is_padded(raw: &[u8]) -> bool {
    raw.len() > 1 && raw[0] == b'0' && raw.iter().all(u8::is_ascii_digit)
}

/// Where the padded keys of an input stand, by its marks alone: no tree is built, and nothing is
/// refused.
fn padded_keys(config: Config, input: &[u8]) -> Vec<Range<usize>> {
    let mut keys = Vec::new();
    let (mut at, mut level, mut start, mut place) = (Root, 0, 0, 0);
    while place <= input.len() {
        let (byte, length) = front(config.form, &input[place..]);
        let moved = after(at, byte, level < config.depth);
        if let Some(next) = moved {
            if matches!(at, Root | Inside) && is_padded(&input[start..place]) {
                keys.push(start..place);
            }
            level = match next {
                Root => 0,
                Inside => level + 1,
                _ => level,
            };
            (at, start) = (next, place + length);
        }
        // at the depth the byte straight after the bracket is the key's, whatever it is
        place += length + usize::from(matches!(moved, Some(Kept)));
    }
    keys
}

/// The input with the first `0` of each of these keys as an escape.
fn escaped(input: &[u8], keys: &[Range<usize>]) -> Vec<u8> {
    let mut escaped = input.to_vec();
    for key in keys.iter().rev() {
        escaped.splice(key.start..=key.start, *b"%30");
    }
    escaped
}

/// How many inputs had padded keys, how many had none, and which numbers were answered.
#[derive(Default)]
struct Rewritten {
    padded: usize,
    others: usize,
    numbers: Numbers,
}

impl Rewritten {
    /// What we read is what the crate reads of the input with escapes, at a place that is two
    /// further for each of these before it.
    fn with_the_crate(&mut self, config: Config, input: &[u8]) {
        let keys = padded_keys(config, input);
        match keys.is_empty() {
            true => self.others += 1,
            false => self.padded += 1,
        }
        let escaped = escaped(input, &keys);
        let expected = serde_qs_reference::parse(&escaped, config.depth as usize, config.form);
        let (words, bytes) = qs::room(input.len());
        let read = parsed(config, input, words, bytes);
        self.numbers.count(read.number);
        let place = read.place as usize;
        let before = keys.iter().filter(|key| key.end < place).count();
        let got = match read.number {
            refusal::ACCEPTED => Ok(tree(&read.words, &read.text)),
            number => Err((number, place + 2 * before)),
        };
        assert_eq!(got, expected, "{}", shown(config, input));
    }

    fn report(&self, what: &str, numbers: &[u32]) {
        let (padded, others) = (self.padded, self.others);
        println!("{padded} inputs with padded keys, {others} without");
        assert!(padded > 0 && others > 0);
        self.numbers.report(what, numbers);
    }
}

/// The escapes by hand: keys get them wherever they stand, and values, keys at the depth and
/// whatever else is in brackets don't.
#[test]
fn rewritten_inputs() {
    let (none, one) = (counting(0, false), counting(1, false));
    let form = counting(5, true);
    for (config, input, expected) in [
        (on(), "07=07&0&00[07]=", "%307=07&0&%300[%307]="),
        (on(), "a[07&b]&a[=07]&a[b]07", "a[07&b]&a[=07]&a[b]07"),
        (on(), "[01][2][03]&=04&05", "[%301][2][%303]&=04&%305"),
        (one, "a[01][02]=03&04", "a[%301][02]=03&%304"),
        (one, "a[01][&02&03", "a[%301][&02&%303"),
        (none, "01[02]&03=&[04]", "01[02]&%303=&[04]"),
        (form, "01%5B02%5D=%5B03", "%301%5B%302%5D=%5B03"),
        (on(), "01%5B02%5D=&%303", "01%5B02%5D=&%303"),
    ] {
        let input = input.as_bytes();
        let got = escaped(input, &padded_keys(config, input));
        assert_eq!(got.escape_ascii().to_string(), expected);
    }
}

/// Refusals at a place by hand, with us and, where the keys have escapes, with the crate.
#[test]
fn rewritten_places() {
    if !reference_is_there() {
        return;
    }
    for (input, number, place, of_the_crate) in [
        ("07=1&07[b]=2", 9, 9, 13),
        ("07[", 4, 4, 6),
        // a key that isn't closed is none
        ("07[08", 5, 6, 8),
        ("07=&0[07]09", 11, 10, 14),
        ("07[][08]", 12, 5, 7),
        ("07[]08", 13, 5, 7),
        ("07=&07[08]", 10, 8, 12),
    ] {
        let input = input.as_bytes();
        let (words, bytes) = qs::room(input.len());
        let got = parsed(on(), input, words, bytes);
        assert_eq!(got, refused(number, place, words, bytes));
        let escaped = escaped(input, &padded_keys(on(), input));
        let read = serde_qs_reference::parse(&escaped, 5, false);
        assert_eq!(read, Err((number, of_the_crate)));
        Rewritten::default().with_the_crate(on(), input);
    }
}

#[test]
fn short_inputs_with_the_crate() {
    if !reference_is_there() {
        return;
    }
    let mut rewritten = Rewritten::default();
    for config in configs() {
        every_string(b"07a[]&=", 5, |input| {
            rewritten.with_the_crate(config, input)
        });
        every_string(b"0[]&=", 7, |input| rewritten.with_the_crate(config, input));
        every_string(b"07%35BD", 5, |input| {
            rewritten.with_the_crate(config, input)
        });
    }
    rewritten.report(
        "every input of up to 5 bytes over 7, twice, and 7 over 5",
        &[0, 4, 5, 6, 8, 9, 10, 11, 12, 13],
    );
}

#[test]
fn random_inputs_with_the_crate() {
    if !reference_is_there() {
        return;
    }
    let mut random = Random::new(72);
    let mut rewritten = Rewritten::default();
    for _ in 0..times(50_000) {
        let config = random_counting(&mut random);
        rewritten.with_the_crate(config, &some_folders(&mut random));
    }
    for pairs in [500, 2_000, 5_000] {
        let mut input = folders(&mut random, pairs);
        input.retain(|byte| !b"[]x".contains(byte));
        input.truncate(qs::MAX_LEN);
        rewritten.with_the_crate(on(), &input);
    }
    rewritten.report("random inputs", &[0, 4, 5, 6, 7, 8, 9, 10, 11, 12, 13]);
}

// The two settings beside each other.

/// Whether a tree has a string key that is digits alone with a needless zero in front.
fn has_padded_name(tree: &Tree) -> bool {
    let Tree::Map(entries) = tree else {
        return false;
    };
    let padded = |key: &Key| matches!(key, Key::String(bytes) if is_padded(bytes));
    let mut entries = entries.iter();
    entries.any(|(key, value)| padded(key) || has_padded_name(value))
}

/// What is written of an input in an ample output, and its answer.
fn answer_and_output(config: Config, input: &[u8]) -> (raw::Written, Vec<u8>) {
    let mut buffers = Buffers::for_len(input.len());
    let mut out = vec![BEFORE; qs::write_room(input.len())];
    let written = raw::write(ticket(config, input), buffers.lend(), &mut out);
    (written, out)
}

/// Without padded keys both settings answer and leave the same, and write the same but for string
/// keys that only the one has to escape. With a padded key that isn't too large, an accepted input
/// leaves something else. Gives whether there is one.
fn beside_each_other(config: Config, input: &[u8]) -> bool {
    let (words, bytes) = qs::room(input.len());
    let [off, on] = both_zeros(config).map(|config| parsed(config, input, words, bytes));
    let keys = padded_keys(config, input);
    if keys.is_empty() {
        assert_eq!(off, on, "{}", shown(config, input));
        let accepted = on.number == refusal::ACCEPTED;
        if !(accepted && has_padded_name(&tree(&on.words, &on.text))) {
            let [off, on] = both_zeros(config).map(|config| answer_and_output(config, input));
            assert_eq!(off, on, "{}", shown(config, input));
        }
        return false;
    }
    let small = keys.iter().any(|key| key.len() < 10);
    if on.number == refusal::ACCEPTED && small {
        assert_ne!(off, on, "{}", shown(config, input));
    }
    true
}

#[test]
fn inputs_without_padded_keys() {
    let mut random = Random::new(73);
    let mut counts = [0, 0];
    for config in configs() {
        for (alphabet, longest) in [(BYTES, 4), (b"07[]&=", 5)] {
            every_string(alphabet, longest, |input| {
                counts[usize::from(beside_each_other(config, input))] += 1;
            });
        }
    }
    for turn in 0..times(50_000) {
        let config = random_config(&mut random);
        let mut input = some_folders(&mut random);
        if turn % 2 == 0 {
            input.retain(|&byte| byte != b'0');
        }
        counts[usize::from(beside_each_other(config, &input))] += 1;
    }
    println!(
        "{} inputs with padded keys, {} without",
        counts[1], counts[0]
    );
    assert!(counts[0] > 0 && counts[1] > 0);
}

// The flags as C has them.

mod c {
    extern "C" {
        pub fn qs_parse(
            depth: u32,
            form: u32,
            zeros: u32,
            input: *const u8,
            input_len: usize,
            records: *mut u32,
            records_len: usize,
            text: *mut u8,
            text_len: usize,
        ) -> qs::raw::Reading;
    }
}

/// A reading with flags of any number.
fn with_flags(form: u32, zeros: u32, input: &[u8]) -> Outcome {
    let (words, bytes) = qs::room(input.len());
    let (mut records, mut text) = lent(words, bytes);
    // SAFETY: the slices live through the call, and `records` and `text` are lent to it alone.
    let reading = unsafe {
        c::qs_parse(
            5,
            form,
            zeros,
            input.as_ptr(),
            input.len(),
            records.as_mut_ptr(),
            records.len(),
            text.as_mut_ptr(),
            text.len(),
        )
    };
    outcome(reading, records, text)
}

/// 0 is off, and any other number is on; neither flag is taken for the other.
#[test]
fn flags_are_off_or_on() {
    let input = b"07%5B08%5D=v&007&7";
    let (words, bytes) = qs::room(input.len());
    let flags = [0, 1, 2, 3, 255, 256, 65_536, 1 << 31, u32::MAX];
    let mut seen = Vec::new();
    for form in flags {
        for zeros in flags {
            let config = Config {
                zeros: zeros != 0,
                ..crate_config(5, form != 0)
            };
            let got = with_flags(form, zeros, input);
            assert_eq!(got, parsed(config, input, words, bytes), "{form} {zeros}");
            if !seen.contains(&got) {
                seen.push(got);
            }
        }
    }
    assert_eq!(seen.len(), 4);
}

// Long keys.

/// A long padded key needs just as many bytes of text as it has, at the root and in brackets; a
/// number needs none.
#[test]
fn long_keys() {
    let zeros = |count: usize, end: &str| "0".repeat(count) + end;
    for (before, key, behind) in [
        ("", zeros(20_000, "7"), ""),
        ("", zeros(65_535, ""), ""),
        ("", zeros(65_534, "7"), ""),
        ("", zeros(20_000, "4294967296"), ""),
        ("a[", zeros(20_000, "7"), "]"),
        ("a[", zeros(65_532, ""), "]"),
    ] {
        let input = [before, &key, behind].concat().into_bytes();
        assert!(input.len() <= qs::MAX_LEN);
        let name = usize::from(!before.is_empty());
        let records = 2 + name;
        let needed = name + key.len();
        let fits = read(on(), &input, records * RECORD_WORDS, needed);
        let counts = (records as u32, needed as u32);
        assert_eq!((fits.number, fits.place), (0, 0));
        assert_eq!((fits.records, fits.bytes), counts);
        assert!(fits.text.ends_with(key.as_bytes()));
        let short = read(on(), &input, records * RECORD_WORDS, needed - 1);
        let place = input.len() as u32 + 1;
        assert_eq!(
            (short.number, short.place),
            (refusal::TOO_LITTLE_TEXT, place)
        );
        let number = !key.ends_with("4294967296");
        let off = read(
            off(),
            &input,
            records * RECORD_WORDS,
            if number { name } else { needed },
        );
        assert_eq!((off.number, off.records), (0, counts.0));
    }
}

/// The longest are written as they are, and one byte more is refused by 2.
#[test]
fn long_keys_are_written() {
    let mut writings = Writings::default();
    for length in [20_001, qs::MAX_LEN] {
        let input = [&vec![b'0'; length - 1][..], b"7"].concat();
        let got = writings.around(on(), &input);
        assert_eq!((got.reading.number, got.length as usize), (0, length));
        assert!(got.out.starts_with(&input));
    }
    let long = vec![b'0'; qs::MAX_LEN + 1];
    let got = writings.around(on(), &long);
    assert_eq!(got.reading.number, refusal::TOO_LONG);
}

// A ticket that grows (READING, 'Growth').

/// Whether a value, below the root, is kept in another.
fn keeps(grown: &Tree, before: &Tree) -> bool {
    match (before, grown) {
        (Tree::Map(before), Tree::Map(grown)) => before.iter().all(|(key, value)| {
            let mut entries = grown.iter();
            entries.any(|(held, grown)| held == key && keeps(grown, value))
        }),
        (Tree::Sequence(before), Tree::Sequence(grown)) => grown.starts_with(before),
        (Tree::Map(_) | Tree::Sequence(_), _) => false,
        (single, Tree::Sequence(grown)) => grown.first() == Some(single),
        (single, grown) => grown == single,
    }
}

/// What a reading of A says of one of A, `&` and B: once both are accepted, the second tree keeps
/// the first; where the second alone is refused, it is past the `&`; and a refusal that more input
/// can't lift stands.
fn grew(length: usize, first: &Outcome, second: &Outcome) -> bool {
    match (first.number, second.number) {
        (0, 0) => {
            let before = tree(&first.words, &first.text);
            let grown = tree(&second.words, &second.text);
            before == Tree::Uninitialized || keeps(&grown, &before)
        }
        (0, _) => second.place as usize > length + 1,
        (refusal::END_AFTER_OPENING | refusal::END_BEFORE_CLOSING, _) => true,
        (number, other) => (number, first.place) == (other, second.place),
    }
}

#[test]
fn an_input_that_grows() {
    let mut random = Random::new(74);
    let mut counts = [[0; 2]; 2];
    for _ in 0..times(50_000) {
        let config = random_counting(&mut random);
        let (first, second) = (some_folders(&mut random), some_folders(&mut random));
        if first.is_empty() {
            continue;
        }
        let both = [&first[..], b"&", &second].concat();
        let outcomes = [&first, &both].map(|input| {
            let (words, bytes) = qs::room(input.len());
            read(config, input, words, bytes)
        });
        let [before, grown] = &outcomes;
        let what = || format!("{} grows to {}", shown(config, &first), both.escape_ascii());
        assert!(grew(first.len(), before, grown), "{}", what());
        let [one, other] = outcomes.map(|outcome| usize::from(outcome.number == 0));
        counts[one][other] += 1;
    }
    println!("A and A&B refused or accepted: {counts:?}");
    assert!(counts[1][1] > 1_000 && counts[1][0] > 0 && counts[0][0] > 0);
}

/// Growth that doesn't hold where the settings differ: the tests above would see it.
#[test]
fn an_input_that_grows_under_another_setting() {
    let (words, bytes) = qs::room(4);
    let first = parsed(on(), b"07", words, bytes);
    assert!(grew(2, &first, &parsed(on(), b"07&7", words, bytes)));
    assert!(!grew(2, &first, &parsed(off(), b"07&7", words, bytes)));
}

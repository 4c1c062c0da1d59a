//! Many children, in every order, in buffers of many sizes. While it reads, the reader may keep
//! aids to finding a place among children in lent words that no record has yet; how many words are
//! lent decides how many aids there are, and from when on none. Nothing of that may show: here
//! every answer, word and byte is held against the model, and with ample buffers the tree against
//! the crate's. `COMPARE=whole` in the environment makes the inputs larger, and the random part
//! twenty times as large.

mod common;

use common::kinds::{apart, joined, Kind, HARD, USUAL};
use common::mixtures::{mixture, NESTINGS, SHAPES};
use common::orders::{self, ORDERS};
use common::{
    both_zeros, crate_config, outcome, random_config, reference_is_there, settings, ticket, times,
    tree, Random,
};
use model::Outcome;
use qs::{raw, refusal, Config, Lent, RECORD_WORDS};

/// What stands in the lent words, and in the text by its lowest byte, before a reading: what might
/// be taken for numbers of records, or for counts.
const BEFORE: [fn(usize) -> u32; 4] = [
    |_| 7,
    |_| u32::MAX,
    |place| (place / RECORD_WORDS) as u32,
    |place| (place * 31 % 67) as u32,
];

/// What readings with scant buffers answer.
const SCANT: [u32; 3] = [
    refusal::ACCEPTED,
    refusal::TOO_FEW_RECORDS,
    refusal::TOO_LITTLE_TEXT,
];

/// Readings of one input: how it is set, and what a failure names.
struct Readings<'a> {
    name: String,
    config: Config,
    input: &'a [u8],
    counts: &'a mut Counts,
}

/// How many readings answered each number, and whether the crate is there to compare with.
struct Counts {
    answers: [usize; refusal::TOO_LITTLE_TEXT as usize + 1],
    reference: bool,
}

impl Counts {
    fn new() -> Self {
        Counts {
            answers: Default::default(),
            reference: reference_is_there(),
        }
    }

    fn of<'a>(&'a mut self, name: String, input: &'a [u8]) -> Readings<'a> {
        Readings {
            name,
            config: Config::default(),
            input,
            counts: self,
        }
    }

    fn report(&self, numbers: &[u32]) {
        println!("answers 0 to 15 came {:?} times", self.answers);
        for &number in numbers {
            let times = self.answers[number as usize];
            assert!(times > 0, "there was no answer {number}");
        }
    }
}

impl Readings<'_> {
    /// With so many words and bytes lent: everything that the model says. Gives what was read.
    fn compare(&mut self, words: usize, bytes: usize) -> Outcome {
        let turn = self.counts.answers.iter().sum::<usize>();
        let before = BEFORE[turn % BEFORE.len()];
        let mut records: Vec<u32> = (0..words).map(before).collect();
        let mut text: Vec<u8> = (0..bytes).map(|place| before(place) as u8).collect();
        let expected = model::read(settings(self.config), self.input, &records, &text);
        let lent = Lent {
            records: &mut records,
            text: &mut text,
        };
        let reading = raw::parse(ticket(self.config, self.input), lent);
        let got = outcome(reading, records, text);
        self.counts.answers[got.number as usize] += 1;
        if let Some(difference) = difference(&got, &expected) {
            let start = self.input[..self.input.len().min(2_000)].escape_ascii();
            let (name, config) = (&self.name, self.config);
            panic!("{name}, {config:?}, {words} words, {bytes} bytes: {difference}\nof '{start}'");
        }
        got
    }

    /// With buffers that always suffice; and the crate's tree, or its refusal and place, where it
    /// has the settings too.
    fn compare_ample(&mut self) -> Outcome {
        let (words, bytes) = qs::room(self.input.len());
        let got = self.compare(words, bytes);
        if self.counts.reference && !self.config.zeros {
            let Config { depth, form, .. } = self.config;
            let expected = serde_qs_reference::parse(self.input, depth as usize, form);
            let meant = match got.number {
                refusal::ACCEPTED => Ok(tree(&got.words, &got.text)),
                number => Err((number, got.place as usize)),
            };
            assert!(meant == expected, "{} isn't the crate's tree", self.name);
        }
        got
    }

    /// With records from just below what is used up to what always suffices, some of them with
    /// words left over, and then with scant text.
    fn compare_scant(&mut self) {
        let ample = self.compare_ample();
        assert_eq!(ample.number, refusal::ACCEPTED, "{}", self.name);
        let (used, bytes) = (ample.records as usize, ample.bytes as usize);
        for records in scant_records(used) {
            self.compare(
                records * RECORD_WORDS + records % RECORD_WORDS,
                bytes + records % 3,
            );
        }
        for less in [1, 2, 9, bytes / 10, bytes / 3] {
            self.compare(
                (self.input.len() + 1) * RECORD_WORDS,
                bytes.saturating_sub(less),
            );
            self.compare(2 * used * RECORD_WORDS, bytes.saturating_sub(less));
        }
    }
}

/// What differs first, said in few words.
fn difference(got: &Outcome, expected: &Outcome) -> Option<String> {
    let numbers = |o: &Outcome| (o.number, o.place, o.records, o.bytes);
    if numbers(got) != numbers(expected) {
        let (got, expected) = (numbers(got), numbers(expected));
        return Some(format!(
            "number, place and counts {got:?}, not {expected:?}"
        ));
    }
    if let Some(place) = first_difference(&got.words, &expected.words) {
        let (got, expected) = (got.words.get(place), expected.words.get(place));
        let (record, word) = (place / RECORD_WORDS, place % RECORD_WORDS);
        return Some(format!(
            "word {word} of record {record} is {got:?}, not {expected:?}"
        ));
    }
    let place = first_difference(&got.text, &expected.text)?;
    let (got, expected) = (got.text.get(place), expected.text.get(place));
    Some(format!(
        "byte {place} of the text is {got:?}, not {expected:?}"
    ))
}

/// The first place where two slices differ, or where the shorter one ends.
fn first_difference<T: PartialEq>(a: &[T], b: &[T]) -> Option<usize> {
    // whole slices are compared fast in a debug build too
    if a == b {
        return None;
    }
    (0..a.len().max(b.len())).find(|&place| a.get(place) != b.get(place))
}

/// Numbers of records to lend where so many are used: too few and just enough; such that aids end
/// in the middle; those around where they last to the end, which is when two thirds of what is lent
/// are used; more; and those around the fewest that have aids at all.
fn scant_records(used: usize) -> Vec<usize> {
    let turning = used * 3 / 2;
    let parts = [9, 10, 11, 14, 16, 20, 24].map(|eighths| used * eighths / 8);
    let mut records: Vec<usize> = (used.saturating_sub(2).max(1)..used + 3)
        .chain(turning.saturating_sub(3)..turning + 8)
        .chain(parts)
        .chain(63..66)
        .filter(|&records| records > 0)
        .collect();
    records.sort_unstable();
    records.dedup();
    records
}

/// Every order of keys of every shape, in one nesting after another.
fn every_order_and_shape(count: usize, mut check: impl FnMut(String, &[u8])) {
    let combinations = ORDERS
        .iter()
        .flat_map(|order| SHAPES.iter().map(move |shape| (order, shape)));
    for (turn, (order, shape)) in combinations.enumerate() {
        let nesting = NESTINGS[turn % NESTINGS.len()];
        let name = format!("{} {}, {}, {}", count, shape.0, order.0, nesting.name);
        let pairs = nesting.pairs(count, order.1, shape.1);
        check(name, &joined(qs::MAX_LEN, pairs));
    }
}

#[test]
fn thousands_of_keys() {
    let mut counts = Counts::new();
    every_order_and_shape(times(2_000).min(4_000), |name, input| {
        counts.of(name, input).compare_ample();
    });
    for (name, shape) in SHAPES {
        let pairs = NESTINGS[0].pairs(times(3_000).min(4_000), orders::shuffled, shape);
        let input = joined(qs::MAX_LEN, pairs);
        for config in both_zeros(Config::default()) {
            let mut readings = counts.of(format!("many {name}"), &input);
            readings.config = config;
            readings.compare_ample();
        }
    }
    counts.report(&[refusal::ACCEPTED]);
}

#[test]
fn scant_buffers() {
    let mut counts = Counts::new();
    every_order_and_shape(times(180).min(1_000), |name, input| {
        counts.of(name, input).compare_scant();
    });
    counts.report(&SCANT);
}

/// Few keys everywhere, with every number of records up to three times what is used: so aids end at
/// each place.
#[test]
fn every_number_of_records() {
    const PAIRS: usize = 46;
    let mut counts = Counts::new();
    let mut check = |name: String, input: &[u8]| {
        let mut readings = counts.of(name, input);
        let ample = readings.compare_ample();
        for records in 1..3 * ample.records as usize + 8 {
            readings.compare(records * RECORD_WORDS + records % RECORD_WORDS, input.len());
        }
    };
    for nesting in NESTINGS {
        for (turn, shape) in SHAPES.iter().enumerate() {
            let order = ORDERS[turn % ORDERS.len()];
            let pairs = nesting.pairs(PAIRS, order.1, shape.1);
            let name = format!("{}, {}, {}", shape.0, order.0, nesting.name);
            check(name, &joined(qs::MAX_LEN, pairs));
        }
    }
    for (style, pair) in TURNS.iter().enumerate() {
        let pairs = (0..PAIRS).map(|turn| pair(turn % 5, turn));
        check(format!("turns {style}"), &joined(qs::MAX_LEN, pairs));
    }
    for (style, pair) in EMPTY_KEYS.iter().enumerate() {
        let pairs = (0..PAIRS).map(pair);
        check(format!("empty keys {style}"), &joined(qs::MAX_LEN, pairs));
    }
    counts.report(&[refusal::ACCEPTED, refusal::TOO_FEW_RECORDS]);
}

/// The benchmark's kinds, shorter.
#[test]
fn kinds() {
    let mut counts = Counts::new();
    for Kind { name, depth, make } in USUAL.iter().chain(&HARD) {
        for length in [700, 6_000, times(12_000).min(40_000)] {
            let input = make(length);
            for config in both_zeros(crate_config(*depth, false)) {
                let mut readings = counts.of(format!("{name}, {length}"), &input);
                readings.config = config;
                match length {
                    700 => readings.compare_scant(),
                    _ => drop(readings.compare_ample()),
                }
            }
        }
    }
    counts.report(&SCANT);
}

/// Pairs of so many names in turns, each name a sequence or a map.
const TURNS: [fn(usize, usize) -> String; 5] = [
    |name, _| format!("s{name}[]=1"),
    |name, turn| format!("s{name}={turn}"),
    |name, _| format!("s{name}"),
    |name, turn| format!("s{name}[{}]={turn}", turn * 7 % 1_009),
    |name, turn| match name % 3 {
        0 => format!("s{name}[]=x"),
        1 => format!("s{name}[k{}]", turn * 7 % 1_009),
        _ => format!("s{name}={turn}"),
    },
];

#[test]
fn in_turns() {
    let mut counts = Counts::new();
    for (style, pair) in TURNS.iter().enumerate() {
        for names in [1, 2, 3, 5, 30, 63, 64, 65, 300] {
            let pairs = (0..700).map(|turn| pair(turn % names, turn));
            let input = joined(qs::MAX_LEN, pairs);
            let name = format!("{names} names in turns, style {style}");
            counts.of(name, &input).compare_scant();
        }
    }
    counts.report(&SCANT);
}

/// Two sequences, or two maps, whose records' numbers are a power of two from each other, in turns
/// of one value and of three.
#[test]
fn powers_of_two_apart() {
    let mut counts = Counts::new();
    for power in 3..12 {
        for run in [1, 3] {
            let name = |turn: usize| ["a", "b"][turn / run % 2];
            let elements = (0..400).map(|turn| format!("{}[]={turn}", name(turn)));
            let input = apart(qs::MAX_LEN, 1 << power, ["a[]=1", "b[]=1"], elements);
            let title = |what| format!("{what} {} apart, runs of {run}", 1 << power);
            counts.of(title("sequences"), &input).compare_scant();
            let keys = (0..400).map(|turn| format!("{}[k{}]", name(turn), turn * 7 % 401));
            let input = apart(qs::MAX_LEN, 1 << power, ["a[x]=1", "b[x]=1"], keys);
            counts.of(title("maps"), &input).compare_scant();
        }
    }
    counts.report(&SCANT);
}

/// Pairs of which some give a map itself a value, which goes under its empty key: behind Ints and
/// before Strings.
const EMPTY_KEYS: [fn(usize) -> String; 9] = [
    |i| either(i < 300, format!("a[{i}]=1"), "a=2"),
    |i| either(i < 20, format!("a[{i}]=1"), "a"),
    |i| either(i % 2 == 0, format!("a[{i}]=1"), "a=2"),
    |i| either(i / 7 % 2 == 0, format!("a[{}]=1", 900 - i), "a"),
    |i| either(i % 5 < 4, format!("a[k{}]=1", i * 7 % 601), "a="),
    |i| either(i % 5 < 4, format!("{}", i * 7 % 601), "=2"),
    |i| {
        either(
            i % 3 < 2,
            format!("m{}[{i}]", i % 9),
            &format!("m{}=2", i % 7),
        )
    },
    |i| {
        either(
            i / 9 % 3 < 2,
            format!("m[{}][k{i}]=1", i % 9),
            &format!("m[{}]=2", i % 9),
        )
    },
    |i| {
        either(
            i < 300,
            format!("k{}[x]", i * 7 % 601),
            &format!("k{}=2", i * 11 % 601),
        )
    },
];

fn either(first: bool, pair: String, value: &str) -> String {
    match first {
        true => pair,
        false => value.to_owned(),
    }
}

#[test]
fn empty_keys() {
    let mut counts = Counts::new();
    for (style, pair) in EMPTY_KEYS.iter().enumerate() {
        let input = joined(qs::MAX_LEN, (0..600).map(pair));
        let name = format!("empty keys, style {style}");
        counts.of(name, &input).compare_scant();
    }
    counts.report(&SCANT);
}

#[test]
fn random_mixtures() {
    let mut random = Random::new(21);
    let mut counts = Counts::new();
    for turn in 0..times(1_500) {
        let most = [60, 60, 150, 400][random.below(4)];
        let input = mixture(&mut random, most);
        let input = &input[..input.len().min(qs::MAX_LEN)];
        let mut readings = counts.of(format!("mixture {turn}"), input);
        if random.below(4) == 0 {
            readings.config = random_config(&mut random);
        }
        let ample = readings.compare_ample();
        let (used, bytes) = (ample.records as usize, ample.bytes as usize);
        let most = match ample.number {
            refusal::ACCEPTED => 3 * used,
            _ => input.len(),
        };
        for _ in 0..4 {
            readings.compare(
                RECORD_WORDS + random.below(RECORD_WORDS * most + 40),
                input.len(),
            );
        }
        if bytes > 0 {
            readings.compare(2 * used * RECORD_WORDS, random.below(bytes + 1));
        }
    }
    let met = [4, 5, 6, 7, 8, 9, 10, 11];
    counts.report(&[&SCANT[..], &met].concat());
}

/// The first, the last and a middle field of long inputs, as texts and as lists, with ample records
/// and with fewer.
#[test]
fn fields() {
    let mut numbers = Vec::new();
    for Kind { depth, make, .. } in USUAL.iter().chain(&HARD) {
        let input = make(3_000);
        let pairs: Vec<&[u8]> = input.split(|&byte| byte == b'&').collect();
        for pair in [pairs[0], pairs[pairs.len() / 2], pairs[pairs.len() - 1]] {
            let end = pair.iter().position(|byte| b"=[".contains(byte));
            let name = &pair[..end.unwrap_or(pair.len())];
            let ample = RECORD_WORDS * (input.len() + 1);
            for config in both_zeros(crate_config(*depth, false)) {
                for words in [ample, ample / 2, ample / 4] {
                    compare_text(config, &input, name, words);
                    numbers.push(compare_list(config, &input, name, words));
                }
            }
        }
    }
    let met = [
        refusal::ACCEPTED,
        refusal::TOO_FEW_RECORDS,
        refusal::NO_SUCH_FIELD,
    ];
    for number in met {
        assert!(numbers.contains(&number), "no list read answered {number}");
    }
}

/// A text read of a field against the model's.
fn compare_text(config: Config, input: &[u8], name: &[u8], words: usize) {
    let (before, text_before) = (vec![7; words], vec![7; input.len()]);
    let (mut records, mut text) = (before.clone(), text_before.clone());
    let lent = Lent {
        records: &mut records,
        text: &mut text,
    };
    let read = raw::text(ticket(config, input), name, lent);
    let expected = model::text(settings(config), false, input, name, &before, &text_before);
    let what = format!("text '{}', {words} words", name.escape_ascii());
    let got = outcome(read.reading, records, text);
    assert_eq!(difference(&got, &expected.reading), None, "{what}");
    let part = (read.offset, read.length);
    assert_eq!(part, (expected.offset, expected.length), "{what}");
}

/// A list read of a field against the model's. Gives what it answers.
fn compare_list(config: Config, input: &[u8], name: &[u8], words: usize) -> u32 {
    let (before, text_before) = (vec![7; words], vec![7; input.len()]);
    let list_before = vec![7; qs::list_room(input.len())];
    let (mut records, mut text) = (before.clone(), text_before.clone());
    let mut list = list_before.clone();
    let lent = Lent {
        records: &mut records,
        text: &mut text,
    };
    let read = raw::list(ticket(config, input), name, lent, &mut list);
    let settings = settings(config);
    let expected = model::list(
        settings,
        false,
        input,
        name,
        &before,
        &text_before,
        &list_before,
    );
    let what = format!("list '{}', {words} words", name.escape_ascii());
    let got = outcome(read.reading, records, text);
    assert_eq!(difference(&got, &expected.reading), None, "{what}");
    assert_eq!(read.length, expected.length, "{what}");
    assert_eq!(first_difference(&list, &expected.list), None, "{what}");
    read.reading.number
}

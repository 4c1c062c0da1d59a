//! What the test files share; none of them uses all of it.
#![allow(dead_code)]

pub mod inputs;
pub mod kinds;
pub mod mixtures;
pub mod orders;
pub mod programs;
pub mod rows;
pub mod whatwg;
pub mod writes;

use qs::{raw, row, Lent, Names, NamesBuf, Refusal, Ticket, RECORD_WORDS};
use std::io::Write;

/// A byte of each kind that decoding tells apart: both marks, a digit, a hex letter of either case,
/// the bytes just past the hex letters and just before the capital ones, delimiters and extremes.
pub const KINDS: &[u8] = b"%+2bEgG@[&\0\xFF";

/// Marsaglia's xorshift64: spreads inputs well enough, and gives the same ones in every run.
pub struct Random(u64);

impl Random {
    pub fn new(seed: u64) -> Self {
        assert_ne!(seed, 0, "xorshift never leaves 0");
        Random(seed)
    }

    pub fn next(&mut self) -> u64 {
        self.0 ^= self.0 << 13;
        self.0 ^= self.0 >> 7;
        self.0 ^= self.0 << 17;
        self.0
    }

    /// A number below `bound`.
    pub fn below(&mut self, bound: usize) -> usize {
        (self.next() % bound as u64) as usize
    }

    pub fn byte(&mut self) -> u8 {
        (self.next() >> 32) as u8
    }

    pub fn bytes(&mut self, length: usize) -> Vec<u8> {
        (0..length).map(|_| self.byte()).collect()
    }

    /// Bytes of `alphabet` alone.
    pub fn string(&mut self, alphabet: &[u8], length: usize) -> Vec<u8> {
        (0..length)
            .map(|_| alphabet[self.below(alphabet.len())])
            .collect()
    }

    pub fn shuffle<T>(&mut self, items: &mut [T]) {
        for i in (1..items.len()).rev() {
            items.swap(i, self.below(i + 1));
        }
    }

    /// Changes, drops or adds one byte, or cuts the end off.
    pub fn damage(&mut self, bytes: &mut Vec<u8>) {
        let place = self.below(bytes.len() + 1);
        match self.below(4) {
            0 if place < bytes.len() => bytes[place] = self.byte(),
            1 if place < bytes.len() => drop(bytes.remove(place)),
            2 => bytes.truncate(place),
            _ => bytes.insert(place, self.byte()),
        }
    }
}

/// Calls `check` on every string of at most `longest` bytes over `alphabet`.
pub fn every_string(alphabet: &[u8], longest: usize, mut check: impl FnMut(&[u8])) {
    for length in 0..=longest {
        let mut digits = vec![0; length];
        loop {
            let string: Vec<u8> = digits.iter().map(|&digit| alphabet[digit]).collect();
            check(&string);
            // Counts up in base alphabet.len(), until every digit runs over.
            let Some(place) = digits.iter().rposition(|&digit| digit + 1 < alphabet.len()) else {
                break;
            };
            digits[place] += 1;
            digits[place + 1..].fill(0);
        }
    }
}

/// Calls `check` on the concatenation of every list of at most `longest` pieces, with `between`
/// between each two.
pub fn every_list(pieces: &[&[u8]], longest: usize, between: &[u8], mut check: impl FnMut(&[u8])) {
    let numbers: Vec<u8> = (0..pieces.len() as u8).collect();
    every_string(&numbers, longest, |list| {
        let parts: Vec<&[u8]> = list
            .iter()
            .map(|&piece| pieces[usize::from(piece)])
            .collect();
        check(&parts.join(between));
    });
}

/// Whether more is asked for than the gate compares, by `COMPARE=whole` in the environment.
pub fn whole() -> bool {
    std::env::var("COMPARE").as_deref() == Ok("whole")
}

/// How often a random comparison is made, where one in the gate makes `few`.
pub fn times(few: usize) -> usize {
    match whole() {
        true => 20 * few,
        false => few,
    }
}

/// Says that the calling test is left out, and why; in continuous integration (CI is set) it fails
/// instead.
pub fn leave_out(why: &str) {
    let ci = std::env::var("CI").is_ok_and(|set| !set.is_empty() && set != "false");
    assert!(!ci, "{why}");
    // Not by eprintln!, which the test harness would keep to itself.
    let _ = writeln!(std::io::stderr(), "LEFT OUT: {why}");
}

/// Whether the crate itself was built, to compare with. Where it was not, the calling comparison is
/// left out.
pub fn reference_is_there() -> bool {
    let Some(why) = serde_qs_reference::MISSING else {
        return true;
    };
    leave_out(&format!("no comparison with the crate: {why}"));
    false
}

/// The tree that records and text hold, with values of its own.
pub fn tree(words: &[u32], text: &[u8]) -> serde_qs_reference::Tree {
    owned(qs::Tree::of(words, text).expect("there is a root"))
}

/// A tree with values of its own.
pub fn owned(tree: qs::Tree) -> serde_qs_reference::Tree {
    use qs::Kind;
    use serde_qs_reference::Tree;
    let entry = |(key, value)| (owned_key(key), owned(value));
    match tree.kind() {
        Kind::Uninitialized => Tree::Uninitialized,
        Kind::Map => Tree::Map(tree.entries().map(entry).collect()),
        Kind::Sequence => Tree::Sequence(tree.elements().map(owned).collect()),
        Kind::String => Tree::String(tree.text().expect("its bytes are there").to_vec()),
        Kind::Null => Tree::Null,
        Kind::NoValue => Tree::NoValue,
    }
}

fn owned_key(key: qs::Key) -> serde_qs_reference::Key {
    use serde_qs_reference::Key;
    match key {
        qs::Key::Int(number) => Key::Int(number),
        qs::Key::String(bytes) => Key::String(bytes.to_vec()),
    }
}

/// A ticket at some settings, of several values the last.
pub fn ticket(config: qs::Config, input: &[u8]) -> Ticket<'_> {
    Ticket {
        config,
        ..Ticket::new(input)
    }
}

/// Bytes of a text that an answer says are there.
pub fn part(text: &[u8], offset: u32, length: u32) -> &[u8] {
    row::part(text, offset, length).expect("an answer lies in the text")
}

/// Names laid end to end, and the end of each.
pub fn laid_out<N: AsRef<[u8]>>(names: &[N]) -> (Vec<u8>, Vec<u32>) {
    let laid = NamesBuf::of(names);
    let Names { bytes, ends } = laid.lend();
    (bytes.to_vec(), ends.to_vec())
}

/// Settings that the crate has too: zeros in front of a number don't count.
pub const fn crate_config(depth: u32, form: bool) -> qs::Config {
    let zeros = false;
    qs::Config { depth, form, zeros }
}

/// The settings with zeros in front of a number not counting, as the crate has it, and counting.
pub fn both_zeros(config: qs::Config) -> [qs::Config; 2] {
    [false, true].map(|zeros| qs::Config { zeros, ..config })
}

/// Any of some settings, shallow ones and the deepest.
pub fn random_config(random: &mut Random) -> qs::Config {
    qs::Config {
        depth: [0, 1, 2, 3, 5, qs::MAX_DEPTH][random.below(6)],
        form: random.below(2) == 1,
        zeros: random.below(2) == 1,
    }
}

/// Any of those that the crate has too.
pub fn random_crate_config(random: &mut Random) -> qs::Config {
    let zeros = false;
    qs::Config {
        zeros,
        ..random_config(random)
    }
}

/// Settings of any depth, a shallow one more often than a deep one.
pub fn any_config(random: &mut Random) -> qs::Config {
    let deepest = qs::MAX_DEPTH >> random.below(7);
    qs::Config {
        depth: random.below(deepest as usize + 1) as u32,
        form: random.below(2) == 1,
        zeros: random.below(2) == 1,
    }
}

/// Either of what a field read may do with several values.
pub fn random_duplicates(random: &mut Random) -> qs::DuplicateKeyBehavior {
    use qs::DuplicateKeyBehavior::{Error, TakeLast};
    [TakeLast, Error][random.below(2)]
}

/// Settings for the model.
pub fn settings(config: qs::Config) -> model::Config {
    let qs::Config { depth, form, zeros } = config;
    model::Config { depth, form, zeros }
}

/// What a reading of the library answered and left, as the model has it.
pub fn outcome(reading: raw::Reading, words: Vec<u32>, text: Vec<u8>) -> model::Outcome {
    let raw::Reading {
        number,
        place,
        records,
        bytes,
    } = reading;
    model::Outcome {
        number,
        place,
        records,
        bytes,
        words,
        text,
    }
}

/// What buffers hold before a call.
pub const BEFORE: u8 = 7;

/// Numbers of words for no record, one and two, with the most that is less than the next has, and
/// for four.
pub const SMALL_WORDS: [usize; 6] = [
    0,
    RECORD_WORDS - 1,
    RECORD_WORDS,
    2 * RECORD_WORDS - 1,
    2 * RECORD_WORDS,
    4 * RECORD_WORDS,
];

/// Records and text of so many words and bytes, as they are before a call.
pub fn lent(words: usize, bytes: usize) -> (Vec<u32>, Vec<u8>) {
    (vec![BEFORE.into(); words], vec![BEFORE; bytes])
}

/// What `qs_parse` answers and leaves where so many words and bytes are lent.
pub fn parsed(config: qs::Config, input: &[u8], words: usize, bytes: usize) -> model::Outcome {
    let (mut words, mut text) = lent(words, bytes);
    let lent = Lent {
        records: &mut words,
        text: &mut text,
    };
    let reading = raw::parse(ticket(config, input), lent);
    outcome(reading, words, text)
}

/// The numbers that a call answers: 0, and every refusal's.
pub const NUMBERS: usize = 1 + Refusal::ALL.len();

/// How often each number was answered.
#[derive(Default)]
pub struct Numbers([usize; NUMBERS]);

impl Numbers {
    pub fn count(&mut self, number: u32) {
        self.0[number as usize] += 1;
    }

    /// Says how often each came. Those that have to come did.
    pub fn report(&self, what: &str, expected: &[u32]) {
        println!("{what} answered 0, 1, … {:?} times", self.0);
        for &number in expected {
            assert!(
                self.0[number as usize] > 0,
                "{what} never answered {number}"
            );
        }
    }
}

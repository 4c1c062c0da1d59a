//! Keys of digits: which of them are Ints, and of what value, wherever a key stands. The tree of
//! every input is held against the key rule said in another way (by the text of the digits, without
//! a sum), against the crate and, with all its words and bytes, against the model. `COMPARE=whole`
//! in the environment makes the random part twenty times as large.

mod common;

use common::{
    crate_config, every_string, lent, parsed, reference_is_there, settings, times, tree, Random,
};
use qs::{refusal, Config};
use serde_qs_reference::{decode, Key, Tree};

/// The greatest Int, as it is written.
const MAX_INT: &[u8] = b"4294967295";

/// The key of a segment that isn't empty: an Int if it is digits, and these, without the zeros in
/// front, are fewer than those of the greatest Int or stand not behind them.
fn key_of(raw: &[u8]) -> Key {
    let zeros = raw.iter().take_while(|&&byte| byte == b'0').count();
    let digits = &raw[zeros..];
    let small = digits.len() < MAX_INT.len() || digits.len() == MAX_INT.len() && digits <= MAX_INT;
    if !small || !digits.iter().all(u8::is_ascii_digit) {
        return Key::String(decode(raw));
    }
    let digits = std::str::from_utf8(digits).expect("digits are ASCII");
    // of zeros alone no digits are left
    Key::Int(digits.parse().unwrap_or(0))
}

/// One of the keys on the way to a value: another one; the one in question; or, at the depth, where
/// brackets are kept, what is written before it, itself and what is written behind it, which is a
/// String.
enum Step {
    Other(&'static str),
    Own,
    Kept(&'static str, &'static str),
}
use Step::{Kept, Other, Own};

/// A place for a key: the settings, what is written before it and behind it, and the keys that lead
/// to the value.
struct Place {
    config: Config,
    before: &'static str,
    behind: &'static str,
    path: &'static [Step],
}

const fn place(
    (depth, form): (u32, bool),
    before: &'static str,
    behind: &'static str,
    path: &'static [Step],
) -> Place {
    Place {
        config: crate_config(depth, form),
        before,
        behind,
        path,
    }
}

const OFF: bool = false;
const ON: bool = true;

const PLACES: [Place; 17] = [
    // at the root
    place((5, OFF), "", "", &[Own]),
    place((5, OFF), "", "=v", &[Own]),
    place((5, ON), "", "=", &[Own]),
    place((0, OFF), "", "=v", &[Own]),
    place((5, OFF), "&", "[x]=v", &[Own, Other("x")]),
    place((5, ON), "", "%5Bx%5D=v", &[Own, Other("x")]),
    place((5, OFF), "", "[]=v", &[Own]),
    // in brackets
    place((5, OFF), "a[", "]=v", &[Other("a"), Own]),
    place((1, OFF), "a[", "]", &[Other("a"), Own]),
    place((5, OFF), "[", "]=", &[Own]),
    place((1, ON), "a%5B", "%5D=v", &[Other("a"), Own]),
    place((5, OFF), "a[b][", "][]=v", &[Other("a"), Other("b"), Own]),
    place((5, OFF), "a[", "][b]=v", &[Other("a"), Own, Other("b")]),
    // at the depth
    place(
        (1, OFF),
        "a[b][",
        "]=v",
        &[Other("a"), Other("b"), Kept("[", "]")],
    ),
    place(
        (1, OFF),
        "a[b][",
        "=v",
        &[Other("a"), Other("b"), Kept("[", "")],
    ),
    place((0, OFF), "", "[0]=v", &[Kept("", "[0]")]),
    place((0, OFF), "[", "]=v", &[Kept("[", "]")]),
];

/// An input, and the tree that it means.
type Case = (Config, Vec<u8>, Tree);

impl Place {
    /// The input that has a key here.
    fn case(&self, raw: &[u8]) -> Case {
        let input = [self.before.as_bytes(), raw, self.behind.as_bytes()].concat();
        let tree = self.path.iter().rev().fold(self.value(), |below, step| {
            let key = match step {
                Other(name) => string_key(name.as_bytes()),
                Own => key_of(raw),
                Kept(open, close) => {
                    let whole = [open.as_bytes(), raw, close.as_bytes()].concat();
                    Key::String(decode(&whole))
                }
            };
            Tree::Map(vec![(key, below)])
        });
        (self.config, input, tree)
    }

    /// The value that is written at the end.
    fn value(&self) -> Tree {
        match self.behind {
            behind if behind.ends_with("[]=v") => Tree::Sequence(vec![string("v")]),
            behind if behind.ends_with("=v") => string("v"),
            behind if behind.ends_with('=') => Tree::Null,
            _ => Tree::NoValue,
        }
    }
}

fn string(text: &str) -> Tree {
    Tree::String(text.into())
}

fn string_key(bytes: &[u8]) -> Key {
    Key::String(bytes.to_vec())
}

/// How many inputs were compared, how many of the keys are Ints and how many aren't.
#[derive(Default)]
struct Counts {
    inputs: usize,
    ints: usize,
    strings: usize,
}

impl Counts {
    /// The key in every place.
    fn everywhere(&mut self, raw: &[u8]) {
        match key_of(raw) {
            Key::Int(_) => self.ints += 1,
            Key::String(_) => self.strings += 1,
        }
        for place in &PLACES {
            self.compare(&place.case(raw));
        }
    }

    fn compare(&mut self, (config, input, expected): &Case) {
        self.inputs += 1;
        let shown = || format!("{config:?} '{}'", input.escape_ascii());
        let of_the_crate = serde_qs_reference::parse(input, config.depth as usize, config.form);
        assert_eq!(
            of_the_crate.as_ref(),
            Ok(expected),
            "the crate: {}",
            shown()
        );
        let (words, bytes) = qs::room(input.len());
        let outcome = parsed(*config, input, words, bytes);
        assert_eq!(outcome.number, refusal::ACCEPTED, "{}", shown());
        assert_eq!(
            &tree(&outcome.words, &outcome.text),
            expected,
            "{}",
            shown()
        );
        let (before, text) = lent(words, bytes);
        let of_the_model = model::read(settings(*config), input, &before, &text);
        assert_eq!(outcome, of_the_model, "the model: {}", shown());
    }

    fn report(&self, what: &str) {
        let Counts {
            inputs,
            ints,
            strings,
        } = self;
        println!("{what}: {inputs} inputs, {ints} Ints, {strings} Strings");
        assert!(*ints > 0 && *strings > 0);
    }
}

/// So many zeros, and then the rest.
fn padded(zeros: usize, rest: &str) -> Vec<u8> {
    [&vec![b'0'; zeros], rest.as_bytes()].concat()
}

/// Segments of digits alone, by the zeros in front and the rest, with their values.
const INTS: [(usize, &str, u32); 11] = [
    (0, "0", 0),
    (0, "9", 9),
    (0, "10", 10),
    (2, "7", 7),
    (40, "7", 7),
    (1_000, "7", 7),
    (41, "", 0),
    (0, "999999999", 999_999_999),
    (0, "4294967294", u32::MAX - 1),
    (0, "4294967295", u32::MAX),
    (40, "4294967295", u32::MAX),
];

/// Segments, by the zeros in front and the rest, that are no Ints, though they would be if the sum
/// wrapped or if another test of digits were made.
const STRINGS: [(usize, &str); 31] = [
    (0, "4294967296"),
    (40, "4294967296"),
    (1_000, "4294967296"),
    (0, "4294967300"),
    (0, "5000000000"),
    (0, "9999999999"),
    (0, "10000000000"),
    // 7 more than 2 to the 32, and than ten times that; the same of 64 bits and of 128: a sum that
    // wraps comes to 7
    (0, "4294967303"),
    (0, "42949672967"),
    (0, "18446744073709551623"),
    (0, "184467440737095516167"),
    (0, "340282366920938463463374607431768211463"),
    // 2 to the 64 itself, one less, and 2 to the 33
    (0, "18446744073709551616"),
    (0, "18446744073709551615"),
    (0, "8589934592"),
    // in 32 bits the sum wraps to 0 and goes on
    (0, "42949672960000000000"),
    // beside the digits in ASCII
    (0, "/"),
    (0, ":"),
    (0, "/1"),
    (0, "1/"),
    (0, "1:"),
    (0, ":1"),
    (0, "1/2"),
    (0, "4294967295/"),
    (40, "7:"),
    // what decodes to a digit, signs, spaces, and a digit of another script
    (0, "%31"),
    (0, "1%31"),
    (0, "-1"),
    (0, "+1"),
    (0, "1+"),
    (0, "\u{661}"),
];

#[test]
fn named_segments() {
    if !reference_is_there() {
        return;
    }
    let mut counts = Counts::default();
    for (zeros, rest, value) in INTS {
        let raw = padded(zeros, rest);
        assert_eq!(key_of(&raw), Key::Int(value));
        counts.everywhere(&raw);
    }
    for (zeros, rest) in STRINGS {
        let raw = padded(zeros, rest);
        assert_eq!(key_of(&raw), Key::String(decode(&raw)));
        counts.everywhere(&raw);
    }
    counts.report("named segments");
}

#[test]
fn every_short_segment() {
    if !reference_is_there() {
        return;
    }
    let mut counts = Counts::default();
    every_string(b"/0189:a", 4, |raw| {
        if !raw.is_empty() {
            counts.everywhere(raw);
        }
    });
    counts.report("every segment of up to 4 bytes over 7");
}

/// Every byte, alone and beside digits, but those that end a key or stand for others.
#[test]
fn every_byte_beside_digits() {
    if !reference_is_there() {
        return;
    }
    let mut counts = Counts::default();
    for byte in (0..=255).filter(|byte| !b"&=[]%".contains(byte)) {
        for raw in [
            &[byte][..],
            &[byte, b'1'],
            &[b'1', byte],
            &[b'1', byte, b'2'],
        ] {
            counts.everywhere(raw);
        }
    }
    counts.report("every byte");
}

/// Numbers around those where a sum, in 32 or 64 bits, would wrap or its number of digits changes,
/// with zeros in front and digits behind.
#[test]
fn around_the_limits() {
    if !reference_is_there() {
        return;
    }
    let mut limits: Vec<u128> = vec![1 << 31, 1 << 63];
    limits.extend((1..=24).map(|k| k << 32));
    limits.extend((1..=12).map(|k| k << 64));
    limits.extend((1..=24).map(|digits| 10u128.pow(digits)));
    let mut counts = Counts::default();
    for limit in limits {
        for number in limit - 8..=limit + 8 {
            for zeros in [0, 1, 40] {
                counts.everywhere(&padded(zeros, &number.to_string()));
            }
        }
        for behind in ["0", "7", "00", "07", "0000000000"] {
            counts.everywhere(&padded(0, &(limit.to_string() + behind)));
        }
    }
    counts.report("around the limits");
}

/// Digits of any length, some with zeros in front, some with one byte that is no digit.
#[test]
fn random_segments() {
    if !reference_is_there() {
        return;
    }
    let mut random = Random::new(31);
    let mut counts = Counts::default();
    for _ in 0..times(10_000) {
        let zeros = [0, 0, 1, random.below(50)][random.below(4)];
        let digits = random.below(24);
        let mut raw = padded(zeros, "");
        raw.extend(random.string(b"0123456789", digits));
        if raw.is_empty() || random.below(4) == 0 {
            let at = random.below(raw.len() + 1);
            raw.insert(at, b"/:a;.? \0\xFF"[random.below(9)]);
        }
        counts.everywhere(&raw);
    }
    counts.report("random segments");
}

/// As long as an input may be: zeros and a 7, zeros and a number that is too large, and nines.
#[test]
fn the_longest_keys() {
    if !reference_is_there() {
        return;
    }
    let mut counts = Counts::default();
    let longest = qs::MAX_LEN - b"a[b][][]=v".len();
    for raw in [
        padded(longest - 1, "7"),
        padded(longest - 10, "4294967295"),
        padded(longest - 10, "4294967296"),
        vec![b'9'; longest],
    ] {
        counts.everywhere(&raw);
    }
    counts.report("the longest keys");
}

/// One number is one key, however it is written; what is too large is another key than what it
/// would wrap to.
#[test]
fn spellings_of_a_number() {
    if !reference_is_there() {
        return;
    }
    let list = |values: &[&str]| Tree::Sequence(values.iter().map(|value| string(value)).collect());
    let of_seven = vec![
        (Key::Int(7), list(&["a", "c", "d"])),
        (string_key(b"7"), string("b")),
    ];
    let of_wrapped = vec![
        (Key::Int(7), string("b")),
        (string_key(b"04294967303"), string("d")),
        (string_key(b"18446744073709551623"), string("c")),
        (string_key(b"4294967303"), string("a")),
    ];
    let of_pages = vec![
        (Key::Int(0), string("e")),
        (Key::Int(9), string("b")),
        (Key::Int(10), list(&["a", "c"])),
        (string_key(b"4294967296"), string("d")),
    ];
    let forty = String::from_utf8(padded(40, "7")).expect("digits are ASCII");
    let cases = [
        (format!("7=a&%37=b&007=c&{forty}=d"), Tree::Map(of_seven)),
        (
            "4294967303=a&7=b&18446744073709551623=c&04294967303=d".to_owned(),
            Tree::Map(of_wrapped),
        ),
        (
            "p[10]=a&p[9]=b&p[010]=c&p[4294967296]=d&p[0]=e".to_owned(),
            Tree::Map(vec![(string_key(b"p"), Tree::Map(of_pages))]),
        ),
    ];
    let mut counts = Counts::default();
    for (input, tree) in cases {
        counts.compare(&(Config::default(), input.into_bytes(), tree));
    }
    assert_eq!(counts.inputs, 3);
}

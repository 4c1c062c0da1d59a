//! Writes the stored answers that the program `replay` reads: `rust/cargo.sh run --release
//! --example store > crates/replay/stdin`.
//!
//! A case is a reading and everything that it has to answer and to leave; crates/replay/FORMAT.md
//! says how cases are laid out. The words, the counts and what small buffers do come from the
//! model; each of the model's trees and each refusal 4 to 13 is held against serde_qs 1.1.3 before
//! it is written.

#[path = "../tests/common/mod.rs"]
pub(crate) mod common;

use common::inputs::{long_query, query};
use common::{programs, tree, Random};
use model::row::WIDTH;
use model::{read, Config, Outcome, MAX_DEPTH, MAX_LEN};
use qs::refusal;
use std::collections::BTreeSet;
use std::io::{self, Write};

/// The most that a case lends: as much as the listing program.
pub const MOST_WORDS: usize = programs::LIST_RECORDS * WIDTH;
pub const MOST_BYTES: usize = programs::LIST_BYTES;

/// What the buffers hold before.
pub const BEFORE: u8 = 7;

const DEPTHS: [u32; 5] = [0, 1, 2, 5, MAX_DEPTH];

/// The tickets of READING, 'Examples', at depth 5, with the flag.
const INPUTS_TO_TRY: [(&[u8], bool); 35] = [
    (b"", false),
    (b"&&", false),
    (b"a[&b]=1", false),
    (b"007=x&7=y", false),
    (b"4294967295", false),
    (b"4294967296", false),
    (b"%31=a&1=b", false),
    (b"a[", false),
    (b"a[b", false),
    (b"a%5B", true),
    (b"a[b]=1&a[]=2", false),
    (b"a=1&a[]=2", false),
    (b"a[]=1&a[b]=2", false),
    (b"a=1&a[b]=2", false),
    (b"a=&a[b]=2", false),
    (b"=1&a=2", false),
    (b"a[b]x", false),
    (b"a[][b]=1", false),
    (b"a[]0=1", false),
    (b"a%5Bb%5D=1", true),
    (b"a%5bb%5d=1", true),
    (b"a[b]=1&a=2", false),
    (b"a&a", false),
    (b"ab=c", false),
    (b"a=%%41", false),
    // The same brackets with the flag off, and near ones that the slips would read alike.
    (b"a%5B", false),
    (b"a%5Bb%5D=1", false),
    (b"%31", false),
    (b"1", false),
    (b"99999999999999999999", false),
    (b"a[b&c=d]=1", false),
    (b"a=&a=1", false),
    (b"ab&%61b", false),
    (b"a=%4", false),
    (b"a=+%2B", false),
];

fn main() -> io::Result<()> {
    let mut out = io::stdout().lock();
    out.write_all(&file())?;
    out.flush()
}

/// The whole file.
pub fn file() -> Vec<u8> {
    let mut store = Store::default();
    store.inputs_to_try();
    store.limits();
    store.digits();
    store.drawn();
    let mut file = store.cases.to_le_bytes().to_vec();
    file.extend(store.bytes);
    file
}

/// Settings that the crate has too, since the answers are its own.
fn config(depth: u32, form: bool) -> Config {
    let zeros = false;
    Config { depth, form, zeros }
}

/// The cases so far: how many, and what is written of them. `seen` keeps a case from being stored
/// twice.
#[derive(Default)]
struct Store {
    cases: u32,
    bytes: Vec<u8>,
    seen: BTreeSet<(u32, bool, Vec<u8>, usize, usize)>,
}

impl Store {
    fn inputs_to_try(&mut self) {
        for (input, form) in INPUTS_TO_TRY {
            self.add(config(5, form), input, MOST_WORDS, MOST_BYTES);
        }
        let depth = |depth| config(depth, false);
        for input in [b"a[b][c]=v", &b"a[b][]=v"[..]] {
            self.add(depth(1), input, MOST_WORDS, MOST_BYTES);
        }
        for records in [3, 4] {
            self.add(depth(5), b"a&a", records * WIDTH, 1);
        }
        for bytes in [2, 3] {
            self.add(depth(5), b"ab=c", 2 * WIDTH, bytes);
        }
        for at in [MAX_DEPTH, MAX_DEPTH + 1] {
            self.add(depth(at), b"a=1", MOST_WORDS, MOST_BYTES);
        }
        for length in [MAX_LEN, MAX_LEN + 1] {
            self.add(depth(5), &vec![b'&'; length], WIDTH, 0);
        }
    }

    /// Both sides of the limits: depths, words for the root, and nesting.
    fn limits(&mut self) {
        for form in [false, true] {
            for depth in (MAX_DEPTH - 1..=MAX_DEPTH + 2).chain([u32::MAX]) {
                self.add(config(depth, form), b"a[b]=1", 6 * WIDTH, 6);
            }
            for words in 0..2 * WIDTH + 2 {
                for input in [&b""[..], b"&", b"a", b"=1", b"a["] {
                    self.add(config(5, form), input, words, 1);
                }
            }
            for depth in DEPTHS {
                let nested = [&b"a"[..], &b"[b]".repeat(70), b"=1"].concat();
                self.add(config(depth, form), &nested, MOST_WORDS, MOST_BYTES);
            }
        }
    }

    /// Keys of digits at the root, in brackets and at the depth, and with no text lent, which an
    /// Int doesn't need.
    fn digits(&mut self) {
        let padded = |digits: &str| "0".repeat(40) + digits;
        let keys = [
            // on both sides of the greatest Int, with zeros in front and without
            "4294967295",
            "4294967296",
            &padded("7"),
            &padded("4294967295"),
            &padded("4294967296"),
            // sums that wrap to 7 in 32 and in 64 bits
            "4294967303",
            "42949672967",
            "18446744073709551623",
            "184467440737095516167",
            // beside the digits in ASCII
            "/1",
            "1/",
            ":1",
            "1:",
        ];
        for key in keys {
            for (depth, input) in [
                (5, format!("{key}=v")),
                (5, format!("a[{key}]=v")),
                (1, format!("a[b][{key}]=v")),
                (0, format!("{key}[0]=v")),
            ] {
                self.add(
                    config(depth, false),
                    input.as_bytes(),
                    MOST_WORDS,
                    MOST_BYTES,
                );
            }
            self.add(config(5, true), key.as_bytes(), 2 * WIDTH, 0);
        }
    }

    /// Random and damaged inputs, in buffers that suffice, that are large and that are too small.
    fn drawn(&mut self) {
        let mut random = Random::new(91);
        for _ in 0..210 {
            for depth in DEPTHS {
                for form in [false, true] {
                    let config = config(depth, form);
                    let pairs = 1 + random.below(6);
                    let input = query(&mut random, pairs);
                    let (words, bytes) = match random.below(3) {
                        0 => qs::room(input.len()),
                        1 => (MOST_WORDS, MOST_BYTES),
                        _ => (random.below(8 * WIDTH), random.below(12)),
                    };
                    self.add(config, &input, words, bytes);
                }
            }
        }
        for length in [1_000, 2_000, 3_000] {
            let input = long_query(&mut random, length);
            self.add(config(5, false), &input, MOST_WORDS, MOST_BYTES);
        }
    }

    fn add(&mut self, config: Config, input: &[u8], words: usize, bytes: usize) {
        let case = (config.depth, config.form, input.to_vec(), words, bytes);
        if !self.seen.insert(case) {
            return;
        }
        let (before, text) = (vec![BEFORE.into(); words], vec![BEFORE; bytes]);
        let outcome = read(config, input, &before, &text);
        hold_against_the_crate(config, input, &outcome);
        let head = [
            config.depth,
            config.form.into(),
            words as u32,
            bytes as u32,
            input.len() as u32,
            outcome.number,
            outcome.place,
            outcome.records,
            outcome.bytes,
        ];
        let used = &outcome.words[..outcome.records as usize * WIDTH];
        self.cases += 1;
        self.numbers(&head);
        self.bytes.extend_from_slice(input);
        self.numbers(used);
        self.bytes
            .extend_from_slice(&outcome.text[..outcome.bytes as usize]);
    }

    fn numbers(&mut self, numbers: &[u32]) {
        let bytes = numbers.iter().flat_map(|number| number.to_le_bytes());
        self.bytes.extend(bytes);
    }
}

/// Panics where the crate reads otherwise, or isn't there. Refusals 1 to 3, 14 and 15 are our own.
fn hold_against_the_crate(config: Config, input: &[u8], outcome: &Outcome) {
    let answer = match outcome.number {
        refusal::ACCEPTED => Ok(tree(&outcome.words, &outcome.text)),
        number if refusal::OF_THE_CRATE.contains(&number) => Err((number, outcome.place as usize)),
        _ => return,
    };
    let reference = serde_qs_reference::parse(input, config.depth as usize, config.form);
    assert_eq!(answer, reference, "{config:?} '{}'", input.escape_ascii());
}

//! `qs_parse`, held against the crate's own `parse` (trees, numbers, places) and against the model
//! (every word and byte, and buffers of every small size). `COMPARE=whole` in the environment makes
//! the random part twenty times as large.

mod common;

use common::inputs::{long_query, query, BYTES};
use common::{
    both_zeros, crate_config, every_string, lent, parsed, random_config, random_crate_config,
    reference_is_there, settings, times, tree, Numbers, Random,
};
use qs::{refusal, row, Config, RECORD_WORDS};

/// How often each number was answered.
#[derive(Default)]
struct Counts(Numbers);

impl Counts {
    /// In buffers that always suffice: the crate's tree, or its refusal and place.
    fn with_the_crate(&mut self, config: Config, input: &[u8]) {
        let (words, bytes) = qs::room(input.len());
        let outcome = parsed(config, input, words, bytes);
        self.0.count(outcome.number);
        let expected = serde_qs_reference::parse(input, config.depth as usize, config.form);
        let got = match outcome.number {
            refusal::ACCEPTED => Ok(tree(&outcome.words, &outcome.text)),
            number => Err((number, outcome.place as usize)),
        };
        assert_eq!(got, expected, "{config:?} '{}'", input.escape_ascii());
    }

    /// With any buffers: everything that the model says.
    fn with_the_model(&mut self, config: Config, input: &[u8], words: usize, bytes: usize) {
        let outcome = parsed(config, input, words, bytes);
        self.0.count(outcome.number);
        let (before, text) = lent(words, bytes);
        let expected = model::read(settings(config), input, &before, &text);
        assert_eq!(
            outcome,
            expected,
            "{config:?}, {words} words, {bytes} bytes: '{}'",
            input.escape_ascii()
        );
    }

    fn report(&self, what: &str, numbers: &[u32]) {
        self.0.report(what, numbers);
    }
}

/// Settings that the crate has too.
fn configs() -> impl Iterator<Item = Config> {
    [0, 1, 2, 5]
        .into_iter()
        .flat_map(|depth| [false, true].map(|form| crate_config(depth, form)))
}

#[test]
fn every_short_input() {
    if !reference_is_there() {
        return;
    }
    let mut counts = Counts::default();
    for config in configs() {
        every_string(BYTES, 5, |input| counts.with_the_crate(config, input));
    }
    counts.report(
        "every input of up to 5 bytes over 12, at 8 settings",
        &[0, 4, 5, 6, 8, 9, 10, 11, 12, 13],
    );
}

#[test]
fn random_and_damaged_inputs() {
    if !reference_is_there() {
        return;
    }
    let mut random = Random::new(11);
    let mut counts = Counts::default();
    for _ in 0..times(100_000) {
        let config = random_crate_config(&mut random);
        let pairs = 1 + random.below(8);
        let input = query(&mut random, pairs);
        counts.with_the_crate(config, &input);
    }
    for _ in 0..times(20) {
        let config = random_crate_config(&mut random);
        let length = random.below(qs::MAX_LEN + 1);
        let input = long_query(&mut random, length);
        counts.with_the_crate(config, &input);
        let pairs = random.below(2_000);
        let input = query(&mut random, pairs);
        counts.with_the_crate(config, &input[..input.len().min(qs::MAX_LEN)]);
    }
    counts.report(
        "random and damaged inputs",
        &[0, 4, 5, 6, 7, 8, 9, 10, 11, 12, 13],
    );
}

#[test]
fn every_small_buffer() {
    let mut counts = Counts::default();
    let short = [0, RECORD_WORDS - 1, RECORD_WORDS, 2 * RECORD_WORDS - 1];
    let sizes = [short, [2, 3, 4, 5].map(|records| records * RECORD_WORDS)].concat();
    for config in configs().flat_map(both_zeros) {
        every_string(b"a0[]&=%", 4, |input| {
            for &words in &sizes {
                for bytes in 0..5 {
                    counts.with_the_model(config, input, words, bytes);
                }
            }
        });
    }
    counts.report(
        "every input of up to 4 bytes over 7, in 40 sizes",
        &[0, 3, 4, 5, 14, 15],
    );
}

#[test]
fn random_buffers() {
    let mut random = Random::new(12);
    let mut counts = Counts::default();
    for _ in 0..times(100_000) {
        let config = random_config(&mut random);
        let pairs = 1 + random.below(6);
        let input = query(&mut random, pairs);
        let words = random.below(18 * RECORD_WORDS);
        let bytes = random.below(24);
        counts.with_the_model(config, &input, words, bytes);
        let (words, bytes) = qs::room(input.len());
        counts.with_the_model(config, &input, words, bytes);
    }
    let all: Vec<u32> = (0..16).filter(|number| ![1, 2].contains(number)).collect();
    counts.report("random inputs in random buffers", &all);
}

#[test]
fn limits() {
    let mut counts = Counts::default();
    let usual = Config::default();
    let (deepest, longest) = (qs::MAX_DEPTH, qs::MAX_LEN);
    for depth in (deepest - 1..=deepest + 2).chain([0, 5, u32::MAX]) {
        for form in [false, true] {
            for config in both_zeros(crate_config(depth, form)) {
                counts.with_the_model(config, b"a[b]=1", 6 * RECORD_WORDS, 12);
            }
        }
    }
    for length in longest - 1..=longest + 2 {
        for piece in [&b"&"[..], b"a", b"a&", b"a[b]=1&", b"%41+", b"[]&"] {
            let input: Vec<u8> = piece.iter().copied().cycle().take(length).collect();
            let (words, bytes) = qs::room(length);
            counts.with_the_model(usual, &input, words, bytes);
            counts.with_the_model(usual, &input, 8 * RECORD_WORDS, 64);
        }
    }
    let nested = b"a"
        .iter()
        .chain(b"[b]".iter().cycle().take(3 * 70))
        .copied()
        .collect::<Vec<_>>();
    let (words, bytes) = qs::room(nested.len());
    for depth in [1, 5, deepest - 1, deepest] {
        for config in both_zeros(crate_config(depth, false)) {
            counts.with_the_model(config, &nested, words, bytes);
        }
    }
    counts.report("both sides of each limit", &[0, 1, 2, 14]);
}

/// Cases by hand: what is charged where, spare words, both sides of the limits, and slips that are
/// easily made.
#[test]
fn named_cases() {
    let usual = Config::default();
    let answer = |config, input: &str, records: usize, bytes| {
        let outcome = parsed(config, input.as_bytes(), records * RECORD_WORDS, bytes);
        (
            outcome.number,
            outcome.place,
            outcome.records,
            outcome.bytes,
        )
    };
    assert_eq!(answer(usual, "&&a", 4, 3), (0, 0, 2, 1));
    assert_eq!(answer(usual, "ab&%61b", 8, 2), (0, 0, 4, 2));
    assert_eq!(answer(usual, "a&a", 3, 2), (14, 4, 0, 0));
    assert_eq!(parsed(usual, b"a&a", 4 * RECORD_WORDS, 2).text, [b'a', 0]);
    assert_eq!(answer(usual, "a&a", 4, 2), (0, 0, 4, 1));
    // spare words make no record, and are cleared
    let one_and_spare = 2 * RECORD_WORDS - 1;
    let spare = parsed(usual, b"", one_and_spare, 0);
    assert_eq!((spare.number, spare.records), (0, 1));
    let mut root = vec![0; one_and_spare];
    root[row::KIND] = row::NO_VALUE;
    assert_eq!(spare.words, root);
    let spare = parsed(usual, b"a", one_and_spare, 1);
    assert_eq!((spare.number, spare.place), (14, 2));
    assert_eq!((spare.records, spare.bytes), (0, 0));
    let few = parsed(usual, b"a", RECORD_WORDS - 1, 1);
    assert_eq!((few.number, few.place), (3, 0));
    assert_eq!((few.words, few.text), lent(RECORD_WORDS - 1, 1));
    let longest = "&".repeat(qs::MAX_LEN);
    assert_eq!(answer(usual, &longest, 1, 0), (0, 0, 1, 0));
    assert_eq!(answer(usual, &(longest + "&"), 1, 0), (2, 0, 0, 0));
    let depth = |depth| crate_config(depth, false);
    let deepest = qs::MAX_DEPTH;
    assert_eq!(answer(depth(deepest), "a", 2, 1), (0, 0, 2, 1));
    assert_eq!(answer(depth(deepest + 1), "a", 2, 1), (1, 0, 0, 0));
    // slips that the proved examples alone don't catch
    assert_eq!(answer(usual, "a[b&c=d]=1", 6, 12), (0, 0, 3, 7));
    assert_eq!(answer(usual, "a=&a=1", 6, 12), (0, 0, 4, 2));
}

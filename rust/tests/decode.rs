//! Decoding, held against the crate's own `decode`.

mod common;

use common::{every_string, reference_is_there, Random, KINDS};

/// Bytes kept on either side of the lent buffer, to see that they are left alone.
const MARGIN: usize = 8;

/// Compares, and counts what it compared.
struct Comparison {
    random: Random,
    strings: usize,
    yes: usize,
    no: usize,
}

impl Comparison {
    fn new(seed: u64) -> Self {
        Comparison {
            random: Random::new(seed),
            strings: 0,
            yes: 0,
            no: 0,
        }
    }

    /// Decodes `raw` into a buffer that is one byte short, an exact one, one that is a byte larger
    /// and one of any size.
    fn compare(&mut self, raw: &[u8]) {
        let decoded = serde_qs_reference::decode(raw);
        self.strings += 1;
        if let Some(short) = decoded.len().checked_sub(1) {
            self.decode_into(short, raw, &decoded);
        }
        self.decode_into(decoded.len(), raw, &decoded);
        self.decode_into(decoded.len() + 1, raw, &decoded);
        let any = self.random.below(raw.len() + 4);
        self.decode_into(any, raw, &decoded);
    }

    /// Exactly if the decoded bytes fit, the answer is their number and they are written; no other
    /// byte changes in or around the buffer.
    fn decode_into(&mut self, size: usize, raw: &[u8], decoded: &[u8]) {
        let mut memory = self.random.bytes(MARGIN + size + MARGIN);
        let mut expected = memory.clone();
        let answer = qs::decode(raw, &mut memory[MARGIN..MARGIN + size]);

        let fits = decoded.len() <= size;
        if fits {
            self.yes += 1;
            expected[MARGIN..MARGIN + decoded.len()].copy_from_slice(decoded);
        } else {
            self.no += 1;
        }
        let raw = raw.escape_ascii();
        assert_eq!(
            answer,
            fits.then_some(decoded.len()),
            "'{raw}' into {size} bytes"
        );
        assert_eq!(memory, expected, "'{raw}' into {size} bytes");
    }

    fn report(&self, what: &str) {
        assert!(self.yes > 0 && self.no > 0);
        let Comparison {
            strings, yes, no, ..
        } = self;
        println!("{what}: {strings} strings, {yes} calls that fit, {no} that did not");
    }
}

#[test]
fn short_strings() {
    if !reference_is_there() {
        return;
    }
    let mut comparison = Comparison::new(1);
    every_string(KINDS, 5, |raw| comparison.compare(raw));
    comparison.report("every string of up to 5 bytes over 12");
}

#[test]
fn every_two_bytes_after_a_percent_sign() {
    if !reference_is_there() {
        return;
    }
    let mut comparison = Comparison::new(2);
    for first in 0..=u8::MAX {
        for second in 0..=u8::MAX {
            comparison.compare(&[b'%', first, second, b'+']);
        }
    }
    comparison.report("every two bytes after a '%'");
}

#[test]
fn random_strings() {
    if !reference_is_there() {
        return;
    }
    let mut comparison = Comparison::new(3);
    for _ in 0..1_000_000 {
        let length = comparison.random.below(41);
        let raw = random_raw(&mut comparison.random, length);
        comparison.compare(&raw);
    }
    comparison.report("random strings of up to 40 bytes");
}

#[test]
fn long_strings() {
    if !reference_is_there() {
        return;
    }
    let mut comparison = Comparison::new(4);
    for piece in [&b"%"[..], b"+", b"%41", b"%4", b"%%4g", b"a"] {
        for length in [65_535, 65_536] {
            let raw: Vec<u8> = piece.iter().copied().cycle().take(length).collect();
            comparison.compare(&raw);
        }
    }
    for _ in 0..300 {
        let length = comparison.random.below(70_000);
        let raw = random_raw(&mut comparison.random, length);
        comparison.compare(&raw);
    }
    comparison.report("long strings");
}

/// Raw bytes in one of four mixtures: all kinds alike, mostly escapes, any bytes at all, and
/// well-formed escapes with some damage.
fn random_raw(random: &mut Random, length: usize) -> Vec<u8> {
    match random.below(4) {
        0 => random.string(KINDS, length),
        1 => random.string(b"%%%%+09afAFg", length),
        2 => random.bytes(length),
        _ => {
            let plain = random.bytes(length / 3);
            let escaped = plain.iter().map(|byte| format!("%{byte:02x}"));
            let mut raw = escaped.collect::<String>().into_bytes();
            random.damage(&mut raw);
            raw
        }
    }
}

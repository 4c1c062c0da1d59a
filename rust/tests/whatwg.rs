//! Decoding beside the URL Standard's (url.spec.whatwg.org): its worked examples, the inputs on
//! which both agree, and those on which ours departs from it (READING, 'Decoding').

mod common;

use common::whatwg::{decoded as whatwg, pairs, swallows_a_mark};
use common::{every_string, Random, KINDS};

fn decoded(raw: &[u8]) -> Vec<u8> {
    let mut out = vec![0; raw.len()];
    let length = qs::decode(raw, &mut out).expect("decoded bytes are no more than raw ones");
    out.truncate(length);
    out
}

/// A raw name is the bytes meant by the standard, and its whole parser gives them once what isn't
/// UTF-8 is replaced.
fn means_by_the_standard(raw: &str, meant: &[u8]) {
    let shown = String::from_utf8_lossy(meant).into_owned();
    assert_eq!(whatwg(raw.as_bytes()), meant, "{raw}, by the standard");
    assert_eq!(pairs(raw.as_bytes()), [(shown, String::new())], "{raw}");
}

#[test]
fn examples_on_which_both_agree() {
    let examples: [(&str, &[u8]); 12] = [
        // The URL Standard's examples of percent-decoding.
        ("%25%s%1G", b"%%s%1G"),
        ("‽%25%2E", b"\xE2\x80\xBD\x25\x2E"),
        // Its examples of percent-encoding, read backwards; the last has spaces as '+'.
        ("%E2%89%A1", b"\xE2\x89\xA1"),
        ("Say%20what%E2%80%BD", b"Say what\xE2\x80\xBD"),
        ("1+1+%81%DF+2%20%26%238253%3B", b"1 1 \x81\xDF 2 &#8253;"),
        // web-platform-tests, url/urlencoded-parser.
        ("%61+%4d%4D", b"a MM"),
        ("%C2x", b"\xC2x"),
        ("%2sf%2a", b"%2sf*"),
        ("%", b"%"),
        // '+' in its own place, escaped, and beside a space that is escaped.
        ("+", b" "),
        ("%2B", b"+"),
        ("a+b%20c%2bd", b"a b c+d"),
    ];
    for (raw, meant) in examples {
        means_by_the_standard(raw, meant);
        assert_eq!(decoded(raw.as_bytes()), meant, "{raw}, by the library");
    }
    println!("{} examples on which both agree", examples.len());
}

#[test]
fn examples_on_which_ours_departs() {
    // Raw, as the standard has it, as we have it.
    let examples = [
        ("%%41", "%A", "%%41"),
        ("%+", "% ", "%+"),
        ("%4+", "%4 ", "%4+"),
        ("%4%41", "%4A", "%4%41"),
        // web-platform-tests, url/urlencoded-parser.
        ("%%2a", "%*", "%%2a"),
        ("%2%2af%2a", "%2*f*", "%2%2af*"),
    ];
    for (raw, standard, ours) in examples {
        means_by_the_standard(raw, standard.as_bytes());
        assert_eq!(
            decoded(raw.as_bytes()),
            ours.as_bytes(),
            "{raw}, by the library"
        );
    }
    println!("{} examples on which ours departs", examples.len());
}

/// Where no failed escape swallows a `+` or a `%`, both decode alike; elsewhere they may differ.
#[derive(Default)]
struct Beside {
    alike: usize,
    swallowed: usize,
    different: usize,
}

impl Beside {
    fn compare(&mut self, raw: &[u8]) {
        let same = decoded(raw) == whatwg(raw);
        if swallows_a_mark(raw) {
            self.swallowed += 1;
            self.different += usize::from(!same);
        } else {
            assert!(same, "'{}'", raw.escape_ascii());
            self.alike += 1;
        }
    }

    fn report(&self, what: &str) {
        let Beside {
            alike,
            swallowed,
            different,
        } = self;
        assert!(*alike > 0 && *different > 0);
        println!("{what}: {alike} alike; '+' or '%' swallowed in {swallowed}, {different} differ");
    }
}

#[test]
fn short_strings() {
    let mut beside = Beside::default();
    every_string(KINDS, 5, |raw| beside.compare(raw));
    beside.report("every string of up to 5 bytes over 12");
}

#[test]
fn random_strings() {
    let mut beside = Beside::default();
    let mut random = Random::new(5);
    for _ in 0..1_000_000 {
        let length = random.below(41);
        let alphabet: &[u8] = if random.below(2) == 0 {
            KINDS
        } else {
            b"%+09afAFgzZ...."
        };
        beside.compare(&random.string(alphabet, length));
    }
    beside.report("random strings of up to 40 bytes");
}

//! The UTF-8 test, held against RFC 3629's examples and Rust's own `std::str::from_utf8`.

mod common;

use common::{every_string, Random};

/// The first and last bytes of each range in RFC 3629's grammar, and their neighbours.
const BOUNDARIES: &[u8] = &[
    0x00, 0x7F, 0x80, 0x8F, 0x90, 0x9F, 0xA0, 0xBF, 0xC0, 0xC1, 0xC2, 0xDF, 0xE0, 0xE1, 0xEC, 0xED,
    0xEE, 0xEF, 0xF0, 0xF1, 0xF3, 0xF4, 0xF5, 0xFF,
];

/// Compares, and counts what it compared.
#[derive(Default)]
struct Comparison {
    good: usize,
    bad: usize,
}

impl Comparison {
    fn compare(&mut self, bytes: &[u8]) {
        let good = std::str::from_utf8(bytes).is_ok();
        assert_eq!(qs::is_utf8(bytes), good, "{bytes:02X?}");
        if good {
            self.good += 1;
        } else {
            self.bad += 1;
        }
    }

    fn report(&self, what: &str) {
        let Comparison { good, bad } = self;
        assert!(*good > 0 && *bad > 0);
        println!("{what}: {good} well-formed, {bad} not");
    }
}

#[test]
fn examples_of_rfc_3629() {
    let good: [&[u8]; 5] = [
        // Section 7.
        b"\x41\xE2\x89\xA2\xCE\x91\x2E",
        b"\xED\x95\x9C\xEA\xB5\xAD\xEC\x96\xB4",
        b"\xE6\x97\xA5\xE6\x9C\xAC\xE8\xAA\x9E",
        b"\xEF\xBB\xBF\xF0\xA3\x8E\xB4",
        // Section 10, what the overlong form below stands for.
        b"\x2F\x2E\x2E\x2F",
    ];
    let bad: [&[u8]; 6] = [
        // Section 3: an overlong U+0000, and a surrogate pair in place of U+233B4.
        b"\xC0\x80",
        b"\xED\xA1\x8C\xED\xBE\xB4",
        // Section 10: an overlong full stop.
        b"\x2F\xC0\xAE\x2E\x2F",
        // Section 4: past U+10FFFF; the forms of five and six bytes that RFC 2279 had.
        b"\xF4\x90\x80\x80",
        b"\xF8\x88\x80\x80\x80",
        b"\xFC\x84\x80\x80\x80\x80",
    ];
    for bytes in good {
        assert!(qs::is_utf8(bytes), "{bytes:02X?}");
    }
    for bytes in bad {
        assert!(!qs::is_utf8(bytes), "{bytes:02X?}");
    }
    println!(
        "{} examples, {} well-formed",
        good.len() + bad.len(),
        good.len()
    );
}

#[test]
fn every_character() {
    let mut count = 0;
    for character in '\0'..=char::MAX {
        let mut buffer = [0; 4];
        let bytes = character.encode_utf8(&mut buffer).as_bytes();
        assert!(qs::is_utf8(bytes), "{bytes:02X?}");
        count += 1;
    }
    println!("every character: {count} well-formed");
}

#[test]
fn strings_of_up_to_3_bytes() {
    let all: Vec<u8> = (0..=u8::MAX).collect();
    let mut comparison = Comparison::default();
    every_string(&all, 3, |bytes| comparison.compare(bytes));
    comparison.report("every string of up to 3 bytes");
}

#[test]
fn strings_of_4_boundary_bytes() {
    let mut comparison = Comparison::default();
    every_string(BOUNDARIES, 4, |bytes| comparison.compare(bytes));
    comparison.report("every string of up to 4 boundary bytes");
}

#[test]
fn random_bytes() {
    let mut comparison = Comparison::default();
    let mut random = Random::new(6);
    for _ in 0..500_000 {
        let length = random.below(12);
        comparison.compare(&random.bytes(length));
        let length = random.below(12);
        comparison.compare(&random.string(BOUNDARIES, length));
    }
    comparison.report("random bytes");
}

#[test]
fn random_text_whole_and_damaged() {
    let (mut whole, mut damaged) = (Comparison::default(), Comparison::default());
    let mut random = Random::new(7);
    for _ in 0..1_000_000 {
        let mut bytes = random_text(&mut random).into_bytes();
        whole.compare(&bytes);
        random.damage(&mut bytes);
        damaged.compare(&bytes);
    }
    assert_eq!((whole.good, whole.bad), (1_000_000, 0));
    println!("random text: {} well-formed", whole.good);
    damaged.report("the same, damaged");
}

/// Up to 12 characters, of one to four bytes alike.
fn random_text(random: &mut Random) -> String {
    let length = random.below(13);
    (0..length)
        .map(|_| {
            let bound = [0x80, 0x800, 0x1_0000, 0x11_0000][random.below(4)];
            char::from_u32(random.below(bound) as u32).unwrap_or(char::REPLACEMENT_CHARACTER)
        })
        .collect()
}

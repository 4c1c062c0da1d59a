//! The stored answers that the program `replay` reads are those that `examples/store.rs` writes,
//! and the proved reader gives them.

#[allow(dead_code)]
#[path = "../examples/store.rs"]
mod store;

use qs::{raw, refusal, Lent, RECORD_WORDS};
use std::path::Path;
use store::common::{crate_config, reference_is_there, ticket};

/// The file as it is stored.
fn stored() -> Vec<u8> {
    let path = Path::new(env!("CARGO_MANIFEST_DIR")).join("../crates/replay/stdin");
    std::fs::read(&path).unwrap_or_else(|why| panic!("{}: {why}", path.display()))
}

/// Takes bytes and numbers from a file's front.
struct Front<'a>(&'a [u8]);

impl<'a> Front<'a> {
    fn bytes(&mut self, count: usize) -> &'a [u8] {
        let (taken, rest) = self.0.split_at(count);
        self.0 = rest;
        taken
    }

    fn number(&mut self) -> u32 {
        u32::from_le_bytes(self.bytes(4).try_into().expect("four bytes"))
    }
}

#[test]
fn the_file_is_what_store_writes() {
    if !reference_is_there() {
        return;
    }
    let written = store::file();
    assert!(written.len() < 1 << 20, "{} bytes", written.len());
    assert!(
        stored() == written,
        "run store again: rust/examples/store.rs says how"
    );
}

#[test]
fn the_reader_gives_the_stored_answers() {
    let file = stored();
    let mut front = Front(&file);
    let cases = front.number();
    let mut counts = [0; refusal::TOO_LITTLE_TEXT as usize + 1];
    for case in 0..cases {
        counts[replay(&mut front, case)] += 1;
    }
    assert!(front.0.is_empty(), "{} bytes are left", front.0.len());
    println!(
        "{cases} cases in {} bytes: answers 0 to 15 came {counts:?} times",
        file.len()
    );
    assert!(cases >= 2_000 && counts.iter().all(|&count| count > 0));
}

/// Replays the case at the front, and gives its number.
fn replay(front: &mut Front, case: u32) -> usize {
    let [depth, form, words, bytes, length] = std::array::from_fn(|_| front.number());
    let [number, place, records, used] = std::array::from_fn(|_| front.number());
    let input = front.bytes(length as usize);
    let (words, bytes) = (words as usize, bytes as usize);
    assert!(words <= store::MOST_WORDS && bytes <= store::MOST_BYTES);
    let untouched = refusal::BEFORE_THE_FIRST_BYTE.contains(&number);
    let before = if untouched { store::BEFORE } else { 0 };
    let mut expected_words = vec![u32::from(before); words];
    let mut expected_text = vec![before; bytes];
    for word in &mut expected_words[..records as usize * RECORD_WORDS] {
        *word = front.number();
    }
    expected_text[..used as usize].copy_from_slice(front.bytes(used as usize));
    let mut words_left = vec![store::BEFORE.into(); words];
    let mut text_left = vec![store::BEFORE; bytes];
    let config = crate_config(depth, form == 1);
    let lent = Lent {
        records: &mut words_left,
        text: &mut text_left,
    };
    let reading = raw::parse(ticket(config, input), lent);
    let expected = raw::Reading {
        number,
        place,
        records,
        bytes: used,
    };
    assert_eq!(reading, expected, "case {case}");
    assert_eq!(words_left, expected_words, "case {case}");
    assert_eq!(text_left, expected_text, "case {case}");
    number as usize
}

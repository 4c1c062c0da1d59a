//! The numbers that stand in more than one place are the same in each: a record's row, the limits,
//! a sheet's line and an answer's words, which the model has for itself and the library by what it
//! does, the refusals and their wording, and where the fields of an answer lie for C. Those of
//! include/qs.h are compared in tests/c.rs.

mod common;

use common::{crate_config, lent, parsed, ticket};
use qs::raw::{FieldRead, Reading, Written};
use qs::refusal::{self, NoRefusal};
use qs::{row, Config, Lent, Names, Refusal, ANSWER_WORDS, ELEMENT_WORDS, MAX_DEPTH, MAX_LEN};
use qs::{RECORD_WORDS, SHEET_LINE};
use std::collections::BTreeSet;
use std::mem::transmute;
use std::path::Path;

/// The library's row and the model's, name by name.
#[test]
fn the_model_has_the_same_row() {
    macro_rules! same {
        ($($name:ident)*) => {
            $(assert_eq!(row::$name, model::row::$name, stringify!($name));)*
        };
    }
    assert_eq!(RECORD_WORDS, model::row::WIDTH);
    same!(KIND KEY_KIND KEY KEY_LEN TEXT TEXT_LEN CHILD NEXT);
    same!(UNINITIALIZED MAP SEQUENCE STRING NULL NO_VALUE);
    same!(NO_KEY INT_KEY STRING_KEY);
}

/// Each word of a row has one name.
#[test]
fn a_row_has_its_words() {
    use row::{CHILD, KEY, KEY_KIND, KEY_LEN, KIND, NEXT, TEXT, TEXT_LEN};
    let words = [KIND, KEY_KIND, KEY, KEY_LEN, TEXT, TEXT_LEN, CHILD, NEXT];
    assert!(words.into_iter().eq(0..RECORD_WORDS));
}

#[test]
fn the_model_has_the_same_limits() {
    assert_eq!(MAX_DEPTH, model::MAX_DEPTH);
    assert_eq!(MAX_LEN, model::MAX_LEN);
}

/// The library reads up to each limit, and refuses what is past it.
#[test]
fn the_library_has_the_same_limits() {
    let number = |depth, length, words| {
        let input = vec![b'&'; length];
        parsed(crate_config(depth, false), &input, words, 0).number
    };
    let accepted = refusal::ACCEPTED;
    assert_eq!(number(MAX_DEPTH, 1, RECORD_WORDS), accepted);
    assert_eq!(number(MAX_DEPTH + 1, 1, RECORD_WORDS), refusal::TOO_DEEP);
    assert_eq!(number(5, MAX_LEN, RECORD_WORDS), accepted);
    assert_eq!(number(5, MAX_LEN + 1, RECORD_WORDS), refusal::TOO_LONG);
    assert_eq!(number(5, 1, RECORD_WORDS), accepted);
    assert_eq!(number(5, 1, RECORD_WORDS - 1), refusal::NO_RECORD);
}

/// As many words as an element of a list, a name's answer and a line of a sheet have suffice for
/// one, and one less doesn't.
#[test]
fn the_library_has_the_same_line_and_words() {
    let (mut words, mut text) = lent(2 * RECORD_WORDS, 2);
    let mut lent = Lent {
        records: &mut words,
        text: &mut text,
    };
    let one = ticket(Config::new(), b"a=1");
    let mut list = [0; ELEMENT_WORDS];
    assert!(one.list("a", &mut lent, &mut list).is_ok());
    let refused = one.list("a", &mut lent, &mut list[1..]).err();
    assert_eq!(refused.map(|why| why.refusal), Some(Refusal::ShortSlice));
    let name = Names {
        bytes: b"a",
        ends: &[1],
    };
    let mut answers = [0; ANSWER_WORDS];
    assert!(one.fields(name, &mut lent, &mut answers).is_ok());
    let refused = one.fields(name, &mut lent, &mut answers[1..]).err();
    assert_eq!(refused.map(|why| why.refusal), Some(Refusal::ShortAnswers));
    let mut page = [0; 2 * SHEET_LINE];
    let sheet = one.sheet(&mut lent, &mut page).expect("it fits");
    assert!(sheet.lines().all(|line| line.len() + 1 == SHEET_LINE));
    let refused = one.sheet(&mut lent, &mut page[1..]).err();
    assert_eq!(refused.map(|why| why.refusal), Some(Refusal::ShortPage));
}

#[test]
fn the_model_has_the_same_line_and_answer() {
    assert_eq!(SHEET_LINE, model::SHEET_LINE);
    assert_eq!(ANSWER_WORDS, model::ANSWER_WORDS);
}

/// The numbers go up from 1 without a gap, each with words of its own, and lead back to their
/// refusals; the refusals are a reading's, a field's, a sheet's, names' and then a writing's.
#[test]
fn every_refusal_has_its_number_and_words() {
    let count = Refusal::ALL.len() as u32;
    let numbers = Refusal::ALL.iter().map(|refusal| refusal.number());
    assert!(numbers.eq(1..=count));
    let words: BTreeSet<String> = Refusal::ALL.iter().map(Refusal::to_string).collect();
    assert_eq!(words.len(), Refusal::ALL.len());
    for &refusal in Refusal::ALL {
        assert_eq!(Refusal::from_number(refusal.number()), Some(refusal));
        assert_eq!(Refusal::try_from(refusal.number()), Ok(refusal));
    }
    for number in [refusal::ACCEPTED, count + 1, u32::MAX] {
        assert_eq!(Refusal::from_number(number), None);
        let none = Refusal::try_from(number).expect_err("it has no refusal");
        assert_eq!(none, NoRefusal(number));
        assert_eq!(
            none.to_string(),
            format!("no refusal has the number {number}")
        );
    }
    let refusals = refusal::OF_A_READING
        .chain(refusal::OF_A_FIELD)
        .chain(refusal::OF_A_SHEET)
        .chain(refusal::OF_NAMES)
        .chain(refusal::OF_A_WRITING);
    assert!(refusals.eq(1..=count));
}

/// The proved crate has the same names with the same numbers, and no others.
#[test]
fn the_proved_crate_has_the_same_refusals() {
    let path = Path::new(env!("CARGO_MANIFEST_DIR")).join("../crates/refusals/src/lib.rt");
    let source = std::fs::read_to_string(path).expect("the proved crate is there");
    for refusal in Refusal::ALL {
        let line = format!("    {refusal:?} = {},", refusal.number());
        assert!(source.lines().any(|one| one == line), "{line}");
    }
    let number = |line: &str| {
        line.split_once(" = ")?
            .1
            .strip_suffix(',')?
            .parse::<u32>()
            .ok()
    };
    let numbered = source.lines().filter_map(number).count();
    assert_eq!(numbered, Refusal::ALL.len());
}

/// The words of 1, 2 and 26 name the limits.
#[test]
fn limits_are_worded() {
    let digits = |refusal: Refusal| -> String {
        let words = refusal.to_string();
        words.chars().filter(char::is_ascii_digit).collect()
    };
    assert_eq!(digits(Refusal::TooDeep), MAX_DEPTH.to_string());
    assert_eq!(digits(Refusal::TooLong), MAX_LEN.to_string());
    assert_eq!(digits(Refusal::ShortOutput), MAX_LEN.to_string());
}

/// A field read is six words for C and a writing five, the reading's four first, in the order of
/// include/qs.h.
#[test]
fn answers_lie_flat() {
    let reading = Reading {
        number: 1,
        place: 2,
        records: 3,
        bytes: 4,
    };
    let read = FieldRead {
        reading,
        offset: 5,
        length: 6,
    };
    let written = Written { reading, length: 5 };
    // SAFETY: each is as long as its array, which the compiler checks, and holds nothing but u32.
    let four = unsafe { transmute::<Reading, [u32; 4]>(reading) };
    let six = unsafe { transmute::<FieldRead, [u32; 6]>(read) };
    let five = unsafe { transmute::<Written, [u32; 5]>(written) };
    assert_eq!((four, six), ([1, 2, 3, 4], [1, 2, 3, 4, 5, 6]));
    assert_eq!(five, [1, 2, 3, 4, 5]);
}

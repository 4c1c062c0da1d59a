//! The model, held against the crate itself: with room enough it gives the crate's tree, or its
//! refusal and place. So the model speaks for the crate where a test needs the words of the
//! records, or small buffers, which the crate doesn't have. What the model writes of a tree gives
//! that tree again, to the crate and to the model; `COMPARE=whole` in the environment has more of
//! these.

mod common;

use common::inputs::{deep_query, fields_query, long_query, query, BYTES};
use common::mixtures::mixture;
use common::{
    any_config, crate_config, every_string, random_crate_config, reference_is_there, settings,
    times, tree, whole, Random,
};
use model::{read, Config};
use qs::refusal;

/// Compares the model, in buffers that always suffice, and gives whether it accepts.
fn compare(config: Config, input: &[u8]) -> bool {
    let (words, bytes) = qs::room(input.len());
    let outcome = read(config, input, &vec![7; words], &vec![7; bytes]);
    let expected = serde_qs_reference::parse(input, config.depth as usize, config.form);
    let got = match outcome.number {
        refusal::ACCEPTED => Ok(tree(&outcome.words, &outcome.text)),
        number => Err((number, outcome.place as usize)),
    };
    assert_eq!(got, expected, "{config:?} '{}'", input.escape_ascii());
    outcome.number == refusal::ACCEPTED
}

#[test]
fn short_inputs() {
    if !reference_is_there() {
        return;
    }
    let mut counts = [0, 0];
    for depth in [0, 1, 2, 5] {
        for form in [false, true] {
            every_string(BYTES, 4, |input| {
                let config = settings(crate_config(depth, form));
                counts[usize::from(compare(config, input))] += 1;
            });
        }
    }
    println!("{} accepted, {} refused", counts[1], counts[0]);
    assert!(counts[0] > 0 && counts[1] > 0);
}

#[test]
fn random_inputs() {
    if !reference_is_there() {
        return;
    }
    let mut random = Random::new(5);
    let mut counts = [0, 0];
    for _ in 0..200_000 {
        let config = settings(random_crate_config(&mut random));
        let pairs = 1 + random.below(8);
        let input = query(&mut random, pairs);
        counts[usize::from(compare(config, &input))] += 1;
    }
    for _ in 0..40 {
        let length = random.below(20_000);
        let input = long_query(&mut random, length);
        let usual = settings(qs::Config::default());
        counts[usize::from(compare(usual, &input))] += 1;
    }
    println!("{} accepted, {} refused", counts[1], counts[0]);
    assert!(counts[0] > 0 && counts[1] > 0);
}

/// What the model writes of an input is accepted by the crate and has the input's tree, where the
/// crate has the settings too, and is written in the same bytes again; the model accepts it where
/// it isn't too long, and uses as many records and as much text as for the input. Gives whether the
/// input is accepted.
fn write_and_read(config: Config, input: &[u8]) -> bool {
    let of_the_crate =
        |ticket: &[u8]| serde_qs_reference::parse(ticket, config.depth as usize, config.form);
    let Some(ticket) = model::written(config, input) else {
        return false;
    };
    let described = || {
        let [input, ticket] =
            [input, &ticket[..]].map(|bytes| bytes[..bytes.len().min(200)].escape_ascii());
        format!("{config:?} '{input}' is written '{ticket}'")
    };
    if !config.zeros {
        let meant = of_the_crate(input);
        assert_eq!(of_the_crate(&ticket), meant, "{}", described());
    }
    if ticket.len() > model::MAX_LEN {
        return true;
    }
    assert_eq!(
        model::written(config, &ticket).as_ref(),
        Some(&ticket),
        "{}",
        described()
    );
    let (words, bytes) = qs::room(input.len());
    let first = read(config, input, &vec![7; words], &vec![7; bytes]);
    let (words, bytes) = (
        first.records as usize * qs::RECORD_WORDS,
        first.bytes as usize,
    );
    let again = read(config, &ticket, &vec![9; words], &vec![9; bytes]);
    let counts = (first.number, first.records, first.bytes);
    assert_eq!(
        (again.number, again.records, again.bytes),
        counts,
        "{}",
        described()
    );
    let same = tree(&again.words, &again.text) == tree(&first.words, &first.text);
    assert!(same, "{}", described());
    true
}

#[test]
fn what_is_written_of_short_inputs() {
    if !reference_is_there() {
        return;
    }
    let mut counts = [0, 0];
    for depth in 0..4 {
        for form in [false, true] {
            every_string(BYTES, 4 + usize::from(whole()), |input| {
                let config = settings(crate_config(depth, form));
                counts[usize::from(write_and_read(config, input))] += 1;
            });
        }
    }
    println!("{} accepted, {} refused", counts[1], counts[0]);
    assert!(counts[0] > 0 && counts[1] > 0);
}

#[test]
fn what_is_written_of_random_inputs() {
    if !reference_is_there() {
        return;
    }
    let mut random = Random::new(41);
    let mut counts = [0, 0];
    for turn in 0..times(20_000) {
        let config = settings(any_config(&mut random));
        let pairs = 1 + random.below(8);
        let mut input = match turn % 4 {
            0 => query(&mut random, pairs),
            1 => fields_query(&mut random, pairs),
            2 => deep_query(&mut random, config.depth, pairs),
            _ => mixture(&mut random, 12),
        };
        if random.below(8) == 0 {
            random.damage(&mut input);
        }
        counts[usize::from(write_and_read(config, &input))] += 1;
    }
    for _ in 0..times(10) {
        let length = random.below(model::MAX_LEN + 1);
        let input = long_query(&mut random, length);
        let usual = settings(qs::Config::default());
        counts[usize::from(write_and_read(usual, &input))] += 1;
    }
    println!("{} accepted, {} refused", counts[1], counts[0]);
    assert!(counts[0] > 0 && counts[1] > 0);
}

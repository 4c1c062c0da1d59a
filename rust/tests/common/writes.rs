//! Writings by the library, held against the model and read back.

use super::{lent, outcome, parsed, settings, ticket as at, tree, Numbers};
use model::{Outcome, WriteOutcome};
use qs::raw::{self, Reading, Written};
use qs::{refusal, Config, Lent, RECORD_WORDS};

/// What an output holds before: marks of a query string among other bytes, and not the same at
/// places that are near each other.
pub fn out_before(length: usize) -> Vec<u8> {
    let byte = |place: usize| b"&=[]%"[place % 5] ^ ((place % 127) << 1) as u8;
    (0..length).map(byte).collect()
}

/// The buffers' sizes: words, bytes of text, and bytes of the output.
#[derive(Clone, Copy, Debug)]
pub struct Sizes {
    pub words: usize,
    pub bytes: usize,
    pub out: usize,
}

impl Sizes {
    /// They suffice for every input of so many bytes.
    pub fn ample(length: usize) -> Self {
        let (words, bytes) = qs::room(length);
        let out = qs::write_room(length);
        Sizes { words, bytes, out }
    }

    pub fn buffers(self) -> (Vec<u32>, Vec<u8>, Vec<u8>) {
        let (words, text) = lent(self.words, self.bytes);
        (words, text, out_before(self.out))
    }
}

/// What the library answers and leaves.
pub fn write(config: Config, input: &[u8], sizes: Sizes) -> WriteOutcome {
    let (mut words, mut text, mut out) = sizes.buffers();
    let lent = Lent {
        records: &mut words,
        text: &mut text,
    };
    let Written { reading, length } = raw::write(at(config, input), lent, &mut out);
    WriteOutcome {
        reading: outcome(reading, words, text),
        length,
        out,
    }
}

/// The written bytes of an outcome.
pub fn ticket(outcome: &WriteOutcome) -> &[u8] {
    &outcome.out[..outcome.length as usize]
}

/// The start of an input, for a message.
pub fn start(input: &[u8]) -> String {
    input[..input.len().min(200)].escape_ascii().to_string()
}

/// How often each number was answered, and how many bytes were written.
#[derive(Default)]
pub struct Counts {
    numbers: Numbers,
    bytes: usize,
}

impl Counts {
    /// With any buffers: all that the model says, and what a reading leaves.
    pub fn compare(&mut self, config: Config, input: &[u8], sizes: Sizes) -> WriteOutcome {
        let described = || format!("{config:?} {sizes:?} '{}'", start(input));
        let got = write(config, input, sizes);
        let number = got.reading.number;
        self.numbers.count(number);
        self.bytes += got.length as usize;
        let (words, text, out) = sizes.buffers();
        let expected = model::write(settings(config), input, &words, &text, &out);
        let same = got.reading == expected.reading;
        assert!(same, "not the model's reading: {}", described());
        let (written, of_the_model) = (ticket(&got), ticket(&expected));
        assert!(
            written == of_the_model,
            "{}: written '{}' where the model has '{}'",
            described(),
            start(written),
            start(of_the_model)
        );
        assert!(
            got.out == expected.out,
            "not the model's output: {}",
            described()
        );
        let mut reading = parsed(config, input, sizes.words, sizes.bytes);
        if refusal::OF_A_WRITING.contains(&number) {
            assert_eq!(reading.number, refusal::ACCEPTED, "{}", described());
            reading.number = number;
        }
        let same = got.reading == reading;
        assert!(same, "not the reading of qs_parse: {}", described());
        if number != refusal::ACCEPTED {
            assert_eq!(got.length, 0, "{}", described());
        }
        let same = got.out[got.length as usize..] == out[got.length as usize..];
        assert!(same, "changed past the written bytes: {}", described());
        got
    }

    /// With records and text that suffice, and outputs around the written bytes: none at all, a
    /// byte short, just as long, and longer by a byte. A refused reading writes nothing. What is
    /// written is read back.
    pub fn around(&mut self, config: Config, input: &[u8]) -> WriteOutcome {
        let ample = Sizes::ample(input.len());
        let got = self.compare(config, input, ample);
        let length = got.length as usize;
        for out in [0, length.saturating_sub(1), length, length + 1] {
            let around = self.compare(config, input, Sizes { out, ..ample });
            let number = match got.reading.number {
                refusal::ACCEPTED if out < length => refusal::SHORT_OUTPUT,
                number => number,
            };
            assert_eq!(
                around.reading.number,
                number,
                "an output of {out} for '{}'",
                start(input)
            );
        }
        back(config, input, &got);
        got
    }

    /// The same in an output that is just as long as it need be, by the model, and one that is a
    /// byte shorter.
    pub fn just(&mut self, config: Config, input: &[u8]) {
        let length = model::written(settings(config), input).map_or(0, |ticket| ticket.len());
        let just = Sizes {
            out: length,
            ..Sizes::ample(input.len())
        };
        let got = self.compare(config, input, just);
        if let Some(out) = length.checked_sub(1) {
            let short = write(config, input, Sizes { out, ..just });
            assert_eq!(
                short.reading.number,
                refusal::SHORT_OUTPUT,
                "'{}'",
                start(input)
            );
            assert!(
                short.length == 0 && short.out == out_before(out),
                "'{}'",
                start(input)
            );
            self.numbers.count(refusal::SHORT_OUTPUT);
        }
        back(config, input, &got);
    }

    pub fn report(&self, what: &str, numbers: &[u32]) {
        let what = format!("{what}, {} bytes written,", self.bytes);
        self.numbers.report(&what, numbers);
    }
}

/// Reads back what was written of an accepted input, in buffers that have no more than what the
/// input's tree uses, and that hold something else before, namely records that lead to each other
/// in a circle. It is accepted and has the same tree, to the crate too where it has the settings,
/// and the same is written of it.
pub fn back(config: Config, input: &[u8], first: &WriteOutcome) {
    if first.reading.number != refusal::ACCEPTED {
        return;
    }
    let written = ticket(first);
    let described = format!(
        "{config:?} '{}' is written '{}'",
        start(input),
        start(written)
    );
    read_back(config, first, &described);
    write_again(config, first, &described);
}

/// Records and text that have just what a reading uses, all of it something else before.
fn just(reading: &Outcome) -> (Vec<u32>, Vec<u8>) {
    let (records, bytes) = (reading.records as usize, reading.bytes as usize);
    (vec![1; RECORD_WORDS * records], vec![b'['; bytes])
}

/// What a reading answers that uses as much as another, which was accepted.
fn as_much(reading: &Outcome) -> Reading {
    Reading {
        number: refusal::ACCEPTED,
        place: 0,
        records: reading.records,
        bytes: reading.bytes,
    }
}

fn read_back(config: Config, first: &WriteOutcome, described: &str) {
    let (written, (mut words, mut text)) = (ticket(first), just(&first.reading));
    let buffers = Lent {
        records: &mut words,
        text: &mut text,
    };
    let reading = raw::parse(at(config, written), buffers);
    assert_eq!(reading, as_much(&first.reading), "read back: {described}");
    let meant = tree(&first.reading.words, &first.reading.text);
    let same = tree(&words, &text) == meant;
    assert!(same, "not the tree: {described}");
    if !config.zeros {
        let of_the_crate = serde_qs_reference::parse(written, config.depth as usize, config.form);
        let same = of_the_crate == Ok(meant);
        assert!(same, "not the crate's tree: {described}");
    }
}

fn write_again(config: Config, first: &WriteOutcome, described: &str) {
    let (written, (mut words, mut text)) = (ticket(first), just(&first.reading));
    let mut out = vec![b'&'; written.len()];
    let buffers = Lent {
        records: &mut words,
        text: &mut text,
    };
    let again = raw::write(at(config, written), buffers, &mut out);
    let (reading, length) = (as_much(&first.reading), first.length);
    assert_eq!(again, Written { reading, length }, "again: {described}");
    let same = out == written;
    assert!(same, "written again as '{}': {described}", start(&out));
}

/// What is written of an accepted input; it is compared and read back too.
pub fn written(config: Config, input: &[u8]) -> Vec<u8> {
    let outcome = Counts::default().around(config, input);
    assert_eq!(
        outcome.reading.number,
        refusal::ACCEPTED,
        "{}",
        start(input)
    );
    ticket(&outcome).to_vec()
}

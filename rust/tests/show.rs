//! The program `show`, run as it was built and proved: the default settings that it prints, held
//! against those of Rust, and the text that it shows of raw segments, held against the crate's own
//! `decode`.

mod common;

use common::{every_string, programs, reference_is_there, Random, KINDS};
use std::path::{Path, PathBuf};

/// The buffer that the program decodes into.
const ROOM: usize = 16;

/// The most that it reads.
const MOST: usize = 65_536;

fn program() -> Option<PathBuf> {
    programs::built("show")
}

/// What it prints before the segments.
fn settings() -> String {
    let qs::Config { depth, form, .. } = qs::Config::default();
    format!("depth={depth}\nform={}\n", u8::from(form))
}

fn after_settings(printed: &[u8]) -> &[u8] {
    let rest = printed.strip_prefix(settings().as_bytes());
    rest.expect("the settings come first")
}

#[test]
fn default_settings() {
    let Some(program) = program() else { return };
    let printed = programs::print(&program, b"");
    assert_eq!(String::from_utf8_lossy(&printed), settings());
}

/// Gathers segments into runs of the program, one a line, and counts what is shown of them.
struct Comparison<'a> {
    program: &'a Path,
    segments: Vec<Vec<u8>>,
    bytes: usize,
    runs: usize,
    decoded: usize,
    raw: usize,
    nothing: usize,
}

impl<'a> Comparison<'a> {
    fn new(program: &'a Path) -> Self {
        Comparison {
            program,
            segments: Vec::new(),
            bytes: 0,
            runs: 0,
            decoded: 0,
            raw: 0,
            nothing: 0,
        }
    }

    fn add(&mut self, segment: &[u8]) {
        assert!(!segment.contains(&b'\n'));
        if self.bytes + segment.len() >= MOST {
            self.run();
        }
        self.bytes += segment.len() + 1;
        self.segments.push(segment.to_vec());
    }

    /// The decoding of a segment where that fits; else the segment itself, if it holds no mark;
    /// else nothing.
    fn expected(&mut self, segment: &[u8]) -> Vec<u8> {
        let decoded = serde_qs_reference::decode(segment);
        if decoded.len() <= ROOM {
            self.decoded += 1;
            decoded
        } else if !segment.iter().any(|byte| b"+%".contains(byte)) {
            self.raw += 1;
            segment.to_vec()
        } else {
            self.nothing += 1;
            Vec::new()
        }
    }

    /// Runs the program on what was gathered.
    fn run(&mut self) {
        let segments = std::mem::take(&mut self.segments);
        let input = [segments.join(&b'\n'), vec![b'\n']].concat();
        let printed = programs::print(self.program, &input);
        let mut rest = after_settings(&printed);
        for segment in segments {
            let expected = [self.expected(&segment), vec![b'\n']].concat();
            rest = rest.strip_prefix(&expected[..]).unwrap_or_else(|| {
                panic!(
                    "'{}': '{}' is expected, and printed '{}'",
                    segment.escape_ascii(),
                    expected.escape_ascii(),
                    rest[..rest.len().min(80)].escape_ascii()
                )
            });
        }
        assert!(rest.is_empty());
        self.bytes = 0;
        self.runs += 1;
    }

    fn report(mut self, what: &str) {
        self.run();
        assert!(self.decoded > 0 && self.raw > 0 && self.nothing > 0);
        let Comparison {
            runs,
            decoded,
            raw,
            nothing,
            ..
        } = self;
        println!(
            "{what}: {decoded} shown decoded, {raw} raw, of {nothing} nothing, in {runs} runs"
        );
    }
}

#[test]
fn short_segments() {
    let Some(program) = program() else { return };
    if !reference_is_there() {
        return;
    }
    let mut comparison = Comparison::new(&program);
    every_string(KINDS, 4, |end| comparison.add(end));
    // on both sides of what fits, after bytes that decode to themselves or to others
    for length in ROOM - 3..=ROOM + 1 {
        for piece in [&b"a"[..], b"+", b"%41"] {
            let start = piece.repeat(length);
            every_string(KINDS, 2, |end| comparison.add(&[&start, end].concat()));
        }
    }
    comparison.report("every end of up to 4 bytes over 12");
}

#[test]
fn random_segments() {
    let Some(program) = program() else { return };
    if !reference_is_there() {
        return;
    }
    let mut random = Random::new(9);
    let mut comparison = Comparison::new(&program);
    for _ in 0..100_000 {
        let length = random.below(40);
        let mut segment = match random.below(4) {
            0 => random.string(KINDS, length),
            1 => random.string(b"%%%%+09afAFg", length),
            2 => random.string(b"abc ", length),
            _ => random.bytes(length),
        };
        segment.retain(|&byte| byte != b'\n');
        comparison.add(&segment);
    }
    comparison.report("random segments of up to 39 bytes");
}

/// The last line needs no newline, and what is not read is not shown.
#[test]
fn the_end_of_the_input() {
    let Some(program) = program() else { return };
    let shown = |input: &[u8]| {
        let printed = programs::print(&program, input);
        after_settings(&printed).to_vec()
    };
    assert_eq!(shown(b"a+b"), b"a b\n");
    assert_eq!(shown(b"a+b\n"), b"a b\n");
    assert_eq!(shown(b"\n\n+"), b"\n\n \n");
    let long = vec![b'a'; MOST + 10_000];
    assert!(shown(&long) == [&long[..MOST], b"\n"].concat());
}

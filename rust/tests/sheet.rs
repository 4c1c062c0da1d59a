//! `qs_sheet`, held against the model: the answer, every word of the records, every byte of the
//! text and every byte of the page, on pages of every size. What it answers and leaves besides the
//! page is held against `qs_parse` too, and the lines against their shape alone. `COMPARE=whole` in
//! the environment makes the random part twenty times as large.

mod common;

use common::inputs::{fields_query, long_query, query, BYTES};
use common::kinds::{Kind, HARD, USUAL};
use common::mixtures::mixture;
use common::{
    both_zeros, crate_config, every_string, lent, outcome, parsed, random_config, settings, ticket,
    times, Numbers, Random, SMALL_WORDS,
};
use model::SheetOutcome;
use qs::{raw, refusal, row, Config, Lent, RECORD_WORDS, SHEET_LINE};

/// What a page holds before: bytes that no sheet has, and not the same at the start of any two
/// lines that are near each other.
fn page_before(length: usize) -> Vec<u8> {
    (0..length).map(|place| 128 + (place % 127) as u8).collect()
}

/// The buffers' sizes: words, bytes of text, and bytes of the page.
#[derive(Clone, Copy, Debug)]
struct Sizes {
    words: usize,
    bytes: usize,
    page: usize,
}

impl Sizes {
    /// They suffice for every input of so many bytes.
    fn ample(length: usize) -> Self {
        let (words, bytes) = qs::room(length);
        let page = qs::sheet_room(length);
        Sizes { words, bytes, page }
    }

    fn buffers(self) -> (Vec<u32>, Vec<u8>, Vec<u8>) {
        let (words, text) = lent(self.words, self.bytes);
        (words, text, page_before(self.page))
    }
}

/// What the library answers and leaves.
fn sheet(config: Config, input: &[u8], sizes: Sizes) -> SheetOutcome {
    let (mut words, mut text, mut page) = sizes.buffers();
    let lent = Lent {
        records: &mut words,
        text: &mut text,
    };
    let reading = raw::sheet(ticket(config, input), lent, &mut page);
    SheetOutcome {
        reading: outcome(reading, words, text),
        page,
    }
}

/// How often each number was answered, and how many lines were compared.
#[derive(Default)]
struct Counts {
    numbers: Numbers,
    lines: usize,
}

impl Counts {
    /// With any buffers: all that the model says, what a reading leaves, and the shape.
    fn compare(&mut self, config: Config, input: &[u8], sizes: Sizes) -> SheetOutcome {
        let described = || {
            let start = &input[..input.len().min(200)];
            format!("{config:?} {sizes:?} '{}'", start.escape_ascii())
        };
        let got = sheet(config, input, sizes);
        let number = got.reading.number;
        self.numbers.count(number);
        let (words, text, page) = sizes.buffers();
        let expected = model::sheet(settings(config), input, &words, &text, &page);
        let same = got.reading == expected.reading;
        assert!(same, "not the model's reading: {}", described());
        same_page(&got.page, &expected.page, described);
        let mut reading = parsed(config, input, sizes.words, sizes.bytes);
        if refusal::OF_A_SHEET.contains(&number) {
            assert_eq!(reading.number, refusal::ACCEPTED, "{}", described());
            reading.number = number;
        }
        let same = got.reading == reading;
        assert!(same, "not the reading of qs_parse: {}", described());
        let lines = match number {
            refusal::ACCEPTED => got.reading.records as usize,
            _ => 0,
        };
        self.lines += lines;
        let (sheet, past) = got.page.split_at(SHEET_LINE * lines);
        let same = past == &page[sheet.len()..];
        assert!(same, "changed past the last line: {}", described());
        assert_eq!(shape(sheet), Ok(()), "{}", described());
        got
    }

    /// With records and text that suffice, and pages around as many lines as there are records:
    /// none at all, a byte short, just as long, and longer by a byte and by a line. A refused
    /// reading has no lines.
    fn around(&mut self, config: Config, input: &[u8]) -> SheetOutcome {
        let ample = Sizes::ample(input.len());
        let got = self.compare(config, input, ample);
        let lines = SHEET_LINE * got.reading.records as usize;
        let pages = [0, lines.saturating_sub(1), lines, lines + 1];
        for page in pages.into_iter().chain([lines + SHEET_LINE]) {
            let around = self.compare(config, input, Sizes { page, ..ample });
            let number = match got.reading.number {
                refusal::ACCEPTED if page < lines => refusal::SHORT_PAGE,
                number => number,
            };
            assert_eq!(around.reading.number, number, "a page of {page}");
        }
        got
    }

    fn report(&self, what: &str, numbers: &[u32]) {
        let what = format!("{what}, {} lines,", self.lines);
        self.numbers.report(&what, numbers);
    }
}

/// Two pages byte for byte; where they differ, it says at which line and column first.
fn same_page(got: &[u8], expected: &[u8], described: impl Fn() -> String) {
    assert_eq!(got.len(), expected.len(), "{}", described());
    let mut bytes = got.iter().zip(expected);
    if let Some(place) = bytes.position(|(one, other)| one != other) {
        let (line, column) = (place / SHEET_LINE, place % SHEET_LINE);
        let part = |page: &[u8]| {
            let rest = &page[line * SHEET_LINE..];
            rest[..rest.len().min(SHEET_LINE)]
                .escape_ascii()
                .to_string()
        };
        panic!(
            "{}: line {}, column {}\n     got '{}'\nexpected '{}'",
            described(),
            line + 1,
            column + 1,
            part(got),
            part(expected)
        );
    }
}

/// What each sheet has, whatever it is of: lines of 72 characters and a newline, spaces between the
/// columns, a length for a String alone, and levels that a tree can have in its order. It says what
/// is wrong.
fn shape(sheet: &[u8]) -> Result<(), String> {
    let mut above: Option<(usize, &[u8])> = None;
    for line in sheet.chunks(73) {
        let wrong = |what: &str| Err(format!("{what}: '{}'", line.escape_ascii()));
        let Some((b'\n', characters)) = line.split_last() else {
            return wrong("no newline at its end");
        };
        if characters.len() != 72 || !characters.iter().all(|c| (32..=126).contains(c)) {
            return wrong("not 72 characters");
        }
        if [4, 10, 15, 41]
            .iter()
            .any(|gap| characters[gap - 1] != b' ')
        {
            return wrong("no space between columns");
        }
        let (level, length) = (number(&characters[..3]), number(&characters[4..9]));
        let kind = &characters[10..14];
        if length.is_some() != (kind == b"stri") {
            return wrong("a length for a String alone");
        }
        let deepest = match above {
            None => 0,
            Some((above, b"map " | b"sequ")) => above + 1,
            Some((above, _)) => above,
        };
        match level {
            Some(level) if level <= deepest && (level == 0) == above.is_none() => {
                above = Some((level, kind));
            }
            _ => return wrong("not a level that comes next"),
        }
    }
    Ok(())
}

/// A number on the right of its columns, without a leading zero.
fn number(columns: &[u8]) -> Option<usize> {
    let text = std::str::from_utf8(columns).ok()?;
    let number: usize = text.trim_start().parse().ok()?;
    (text.trim_start() == number.to_string()).then_some(number)
}

/// Lines as they stand here, each filled up to 72 characters.
fn lines<L: AsRef<str>>(lines: &[L]) -> String {
    lines
        .iter()
        .map(|line| format!("{:72}\n", line.as_ref()))
        .collect()
}

/// The sheet of an accepted input; it is compared too.
fn printed(config: Config, input: &[u8]) -> String {
    let mut counts = Counts::default();
    let mut outcome = counts.around(config, input);
    assert_eq!(outcome.reading.number, refusal::ACCEPTED);
    let records = outcome.reading.records as usize;
    outcome.page.truncate(SHEET_LINE * records);
    String::from_utf8(outcome.page).expect("a sheet is ASCII")
}

fn configs() -> impl Iterator<Item = Config> {
    [0, 1, 2, 5, qs::MAX_DEPTH]
        .into_iter()
        .flat_map(|depth| [false, true].map(|form| crate_config(depth, form)))
        .flat_map(both_zeros)
}

#[test]
fn every_short_input() {
    let mut counts = Counts::default();
    for config in configs() {
        every_string(BYTES, 3, |input| drop(counts.around(config, input)));
        every_string(b"a0[]&=", 5, |input| drop(counts.around(config, input)));
    }
    counts.report(
        "every input of up to 3 bytes over 12 and 5 over 6, at 20 settings",
        &[0, 4, 5, 6, 8, 9, 10, 11, 12, 13, 23],
    );
}

/// Pairs whose keys and texts are about as long as their columns, of any bytes, raw and escaped.
fn wide_query(random: &mut Random, pairs: usize) -> Vec<u8> {
    let mut part = |longest: usize, end: u8| {
        let mut part = Vec::new();
        for _ in 0..longest - random.below(8) {
            match random.below(8) {
                0 => part.push(random.byte()),
                1 => part.extend(format!("%{:02X}", random.byte()).bytes()),
                letter => part.push(b'a' + letter as u8),
            }
        }
        part.push(end);
        part
    };
    let pair = |_| [part(29, b'='), part(35, b'&')].concat();
    (0..pairs).flat_map(pair).collect()
}

#[test]
fn random_and_damaged_inputs() {
    let mut random = Random::new(31);
    let mut counts = Counts::default();
    for turn in 0..times(20_000) {
        let config = random_config(&mut random);
        let pairs = 1 + random.below(8);
        let mut input = match turn % 4 {
            0 => query(&mut random, pairs),
            1 => fields_query(&mut random, pairs),
            2 => wide_query(&mut random, pairs),
            _ => mixture(&mut random, 12),
        };
        if random.below(8) == 0 {
            random.damage(&mut input);
        }
        counts.around(config, &input);
    }
    for _ in 0..times(20) {
        let config = random_config(&mut random);
        let length = random.below(qs::MAX_LEN + 1);
        let input = long_query(&mut random, length);
        counts.compare(config, &input, Sizes::ample(length));
    }
    counts.report(
        "random and damaged inputs",
        &[0, 4, 5, 6, 7, 8, 9, 10, 11, 12, 13, 23],
    );
}

/// Long inputs of every kind, in records that were made in any order.
#[test]
fn kinds() {
    let mut counts = Counts::default();
    for Kind { depth, make, .. } in USUAL.iter().chain(&HARD) {
        for config in both_zeros(crate_config(*depth, false)) {
            for length in [700, times(6_000).min(qs::MAX_LEN)] {
                counts.around(config, &make(length));
            }
        }
    }
    counts.report("every kind of long input", &[0, 23]);
}

/// Records and text that may not suffice, so that a reading is refused before the page is looked
/// at.
#[test]
fn every_small_buffer() {
    let mut counts = Counts::default();
    let pages = [0, 72, 73, 145, 146, 220, 292];
    for depth in [0, 5] {
        let config = crate_config(depth, true);
        every_string(b"a0[]&=%", 3, |input| {
            for words in SMALL_WORDS {
                for bytes in 0..4 {
                    for page in pages {
                        counts.compare(config, input, Sizes { words, bytes, page });
                    }
                }
            }
        });
    }
    counts.report(
        "every input of up to 3 bytes over 7, in 168 sizes",
        &[0, 3, 4, 5, 14, 15, 23],
    );
}

#[test]
fn random_buffers() {
    let mut random = Random::new(32);
    let mut counts = Counts::default();
    for turn in 0..times(40_000) {
        let config = random_config(&mut random);
        let pairs = 1 + random.below(6);
        let input = match turn % 2 {
            0 => query(&mut random, pairs),
            _ => wide_query(&mut random, pairs),
        };
        let sizes = Sizes {
            words: random.below(18 * RECORD_WORDS),
            bytes: random.below(input.len() + 1),
            page: random.below(18 * SHEET_LINE),
        };
        counts.compare(config, &input, sizes);
    }
    let all: Vec<u32> = (3..16).chain([0, 23]).collect();
    counts.report("random inputs in random buffers", &all);
}

/// Every page from none to one longer than it need be: it is refused below the last line's last
/// byte, and nowhere else.
#[test]
fn every_page() {
    let mut counts = Counts::default();
    let config = Config::default();
    for (input, records) in [
        ("", 1),
        ("&", 1),
        ("a=1", 2),
        ("a&a", 4),
        ("a[b][c]=1&7", 5),
    ] {
        let ample = Sizes::ample(input.len());
        for page in 0..(records + 1) * 73 + 2 {
            let got = counts.compare(config, input.as_bytes(), Sizes { page, ..ample });
            let short = page < records * 73;
            assert_eq!(got.reading.number, if short { 23 } else { 0 });
            assert_eq!(got.reading.records as usize, records);
        }
    }
    counts.report("every page for 5 inputs", &[0, 23]);
}

/// 23, by hand: counts, records and text are those of the reading, and the page is as it was. A
/// refused reading comes before it.
#[test]
fn a_short_page() {
    let config = Config::default();
    let sizes = |page| Sizes {
        words: 3 * RECORD_WORDS,
        bytes: 4,
        page,
    };
    for page in [0, 1, 72, 73, 145] {
        let got = sheet(config, b"a=1", sizes(page));
        let reading = got.reading;
        assert_eq!((reading.number, reading.place), (refusal::SHORT_PAGE, 0));
        assert_eq!((reading.records, reading.bytes), (2, 2));
        assert_eq!(
            row::record(&reading.words, 0),
            Some(&[1, 0, 0, 0, 0, 0, 1, 0])
        );
        assert_eq!(
            row::record(&reading.words, 1),
            Some(&[3, 2, 0, 1, 1, 1, 0, 0])
        );
        assert_eq!(row::record(&reading.words, 2), Some(&[0; RECORD_WORDS]));
        assert_eq!(reading.text, *b"a1\0\0");
        assert_eq!(got.page, page_before(page));
    }
    for (input, number) in [("a[", 4), ("a&a", 14), ("abcde", 15)] {
        for page in [0, 500] {
            let got = sheet(config, input.as_bytes(), sizes(page));
            let reading = got.reading;
            assert_eq!((reading.number, reading.records), (number, 0), "{input}");
            assert_eq!((reading.words, reading.text), (vec![0; 24], vec![0; 4]));
            assert_eq!(got.page, page_before(page));
        }
    }
}

/// Refusals 1 to 3 leave every buffer as it was.
#[test]
fn untouched_buffers() {
    let mut counts = Counts::default();
    let long = [b'&'; qs::MAX_LEN + 1];
    let deep = |depth| crate_config(depth, false);
    let (usual, above) = (Config::default(), qs::MAX_DEPTH + 1);
    let cases: [(Config, &[u8], usize, u32); 4] = [
        (deep(above), b"a=1", 8 * RECORD_WORDS, refusal::TOO_DEEP),
        (deep(u32::MAX), b"a=1", 8 * RECORD_WORDS, refusal::TOO_DEEP),
        (usual, &long, 8 * RECORD_WORDS, refusal::TOO_LONG),
        (usual, b"a=1", RECORD_WORDS - 1, refusal::NO_RECORD),
    ];
    for (config, input, words, number) in cases {
        for page in [0, 1, 2 * SHEET_LINE, 1_000] {
            let bytes = 8;
            let sizes = Sizes { words, bytes, page };
            let SheetOutcome { reading, page } = counts.compare(config, input, sizes);
            assert_eq!((reading.number, reading.place), (number, 0));
            assert_eq!((reading.words, reading.text, page), sizes.buffers());
        }
    }
}

// Sheets by hand.

#[test]
fn two_lines() {
    let sheet = "  0       map                                                           \n\
                 \x20 1     1 stri a                         1                              \n";
    assert_eq!(printed(Config::default(), b"a=1"), sheet);
}

#[test]
fn every_kind_and_key() {
    let input = "plate[1][page]=12&plate[0][caption]=Fog+at+dawn&h[]=10&h[]=&h[]&n&7=z&plate=%C3%A9&%37&010=";
    let expected = [
        "  0       map",
        "  1     1 stri 7                         z",
        "  1       null 10",
        "  1       nova 7",
        "  1       sequ h",
        "  2     2 stri                           10",
        "  2       null",
        "  2       nova",
        "  1       nova n",
        "  1       map  plate",
        "  2       map  0",
        "  3    11 stri caption                   Fog.at.dawn",
        "  2       map  1",
        "  3     2 stri page                      12",
        "  2     2 stri                           ..",
    ];
    assert_eq!(
        printed(Config::default(), input.as_bytes()),
        lines(&expected)
    );
}

#[test]
fn every_root() {
    let cases: [(&str, &[&str]); 6] = [
        ("", &["  0       nova"]),
        ("&&", &["  0       unin"]),
        ("=", &["  0       null"]),
        ("=x", &["  0     1 stri                           x"]),
        ("[a]", &["  0       map", "  1       nova a"]),
        (
            "[]=x",
            &[
                "  0       sequ",
                "  1     1 stri                           x",
            ],
        ),
    ];
    for (input, expected) in cases {
        let printed = printed(Config::default(), input.as_bytes());
        assert_eq!(printed, lines(expected), "{input}");
    }
}

/// Keys of 24 to 26 bytes and texts of 30 to 32: what just fits has no `>`.
#[test]
fn what_just_fits() {
    let letters = "abcdefghijklmnopqrstuvwxyzABCDEFGH";
    let keys = [
        (24, "abcdefghijklmnopqrstuvwx "),
        (25, "abcdefghijklmnopqrstuvwxy"),
        (26, "abcdefghijklmnopqrstuvwx>"),
    ];
    let texts = [
        (30, "abcdefghijklmnopqrstuvwxyzABCD "),
        (31, "abcdefghijklmnopqrstuvwxyzABCDE"),
        (32, "abcdefghijklmnopqrstuvwxyzABCD>"),
    ];
    for (key_length, key) in keys {
        for (length, text) in texts {
            let input = format!("{}={}", &letters[..key_length], &letters[..length]);
            let line = format!("  1    {length} stri {key} {text}");
            let expected = lines(&["  0       map", &line]);
            assert_eq!(printed(Config::default(), input.as_bytes()), expected);
        }
    }
}

/// Digits are an Int up to the greatest, however many zeros lead, and else a String as it is
/// written.
#[test]
fn keys_of_digits() {
    let (zeros, ones) = ("0".repeat(30), "1".repeat(26));
    let keys = [
        ("0".to_owned(), "0"),
        (zeros, "0"),
        ("0000000000000000000000000000012".to_owned(), "12"),
        ("4294967295".to_owned(), "4294967295"),
        ("4294967296".to_owned(), "4294967296"),
        (ones, "111111111111111111111111>"),
    ];
    for (raw, shown) in keys {
        let expected = lines(&["  0       map", &format!("  1       nova {shown}")]);
        assert_eq!(printed(Config::default(), raw.as_bytes()), expected);
    }
}

/// Every byte in a key and in a text: between others, as the last that fits, and as the last before
/// `>`.
#[test]
fn every_byte() {
    for byte in 0..=255 {
        let shown = match byte {
            b'!'..=b'~' => char::from(byte),
            _ => '.',
        };
        let (k, t) = ("k".repeat(23), "t".repeat(29));
        let cases = [
            (
                format!("k%{byte:02x}k=t%{byte:02X}t"),
                3,
                format!("k{shown}k{:22} t{shown}t", ""),
            ),
            (
                format!("{k}k%{byte:02x}={t}t%{byte:02X}"),
                31,
                format!("{k}k{shown} {t}t{shown}"),
            ),
            (
                format!("{k}%{byte:02x}kk={t}%{byte:02X}tt"),
                32,
                format!("{k}{shown}> {t}{shown}>"),
            ),
        ];
        for (input, length, columns) in cases {
            let line = format!("  1 {length:5} stri {columns}");
            let expected = lines(&["  0       map", &line]);
            assert_eq!(printed(Config::default(), input.as_bytes()), expected);
        }
        // Unescaped, where it may be a mark.
        let raw = [b"k", &[byte][..], b"k=t", &[byte], b"t"].concat();
        Counts::default().around(Config::default(), &raw);
    }
}

/// The deepest level at a depth: below the brackets that nest is the key that has the last ones,
/// given twice.
#[test]
fn the_deepest_level() {
    for (depth, deepest) in [(0, 2), (1, 4), (2, 5), (63, 66), (64, 67)] {
        let config = crate_config(depth, false);
        let path = format!("a{}", "[b]".repeat(depth as usize + 1));
        let printed = printed(config, format!("{path}&{path}").as_bytes());
        let levels = printed.lines().map(|line| number(&line.as_bytes()[..3]));
        let expected = (0..=deepest).chain([deepest]).map(Some);
        assert!(levels.eq(expected), "depth {depth}\n{printed}");
    }
}

/// A length that fills its columns, though the text is cut; and the longest text and key that an
/// input can have.
#[test]
fn the_longest() {
    let long = |before: &str| format!("{before}{}", "x".repeat(qs::MAX_LEN - before.len()));
    let (key, text) = ("x".repeat(24), "x".repeat(30));
    let cases = [
        (
            long("a="),
            vec![
                "  0       map".to_owned(),
                format!("  1 65533 stri a{:24} {text}>", ""),
            ],
        ),
        (long("="), vec![format!("  0 65534 stri {:25} {text}>", "")]),
        (
            long(""),
            vec!["  0       map".to_owned(), format!("  1       nova {key}>")],
        ),
    ];
    for (input, expected) in cases {
        assert_eq!(input.len(), qs::MAX_LEN);
        assert_eq!(
            printed(Config::default(), input.as_bytes()),
            lines(&expected)
        );
    }
}

/// As many values as the longest input can have.
#[test]
fn the_most_lines() {
    let mut counts = Counts::default();
    for (piece, records) in [("a&", 32_770), ("=&", 32_769), ("[]&", 21_846), ("&", 1)] {
        let bytes = piece.bytes().cycle().take(qs::MAX_LEN);
        let input: Vec<u8> = bytes.collect();
        let got = counts.around(Config::default(), &input);
        assert_eq!(got.reading.records, records, "{piece}");
    }
    counts.report("inputs of 65,535 bytes", &[0, 23]);
}

/// The check of the shape sees each byte that isn't a line's, and levels and lengths that can't be.
#[test]
fn a_wrong_shape_is_seen() {
    let right = lines(&["  0       map", "  1       map  a", "  2     1 stri b"]);
    assert_eq!(shape(right.as_bytes()), Ok(()));
    for place in 0..right.len() {
        for byte in [b'\n', 0, 31, 127, 255] {
            let mut wrong = right.clone().into_bytes();
            let changed = wrong[place] != byte;
            wrong[place] = byte;
            assert_eq!(shape(&wrong).is_err(), changed, "{place} {byte}");
        }
    }
    assert!(shape(&right.as_bytes()[1..]).is_err());
    assert!(shape(&right.as_bytes()[..right.len() - 1]).is_err());
    let wrong: [&[&str]; 8] = [
        &["  1       map"],
        &["0         map"],
        &["  0       map", "  2       null a"],
        &["  0       map", "  0       null a"],
        &["  0       map", "  1       null a", "  2       null b"],
        &["  0     1 map"],
        &["  0       stri                           x"],
        &["  0 00001 stri                           x"],
    ];
    for wrong in wrong {
        assert!(shape(lines(wrong).as_bytes()).is_err(), "{wrong:?}");
    }
}

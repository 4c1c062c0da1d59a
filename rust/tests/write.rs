//! `qs_write`, held against the model: the answer, every word of the records, every byte of the
//! text and every byte of the output, in outputs of every size. What it answers and leaves besides
//! the output is held against `qs_parse` too, and what it writes is read back, by itself and, where
//! it has the settings, by the crate: with just the records and the text that were used it gives
//! the tree again, and the same bytes. `COMPARE=whole` in the environment makes the random part
//! twenty times as large, and has one piece or pair more in the inputs that are made of these.

mod common;

use common::inputs::{deep_query, fields_query, long_query, query, BYTES};
use common::kinds::{Kind, HARD, USUAL};
use common::mixtures::mixture;
use common::writes::{back, out_before, start, write, written, Counts, Sizes};
use common::{
    any_config, both_zeros, crate_config, every_list, every_string, random_config,
    reference_is_there, settings, times, whole, Random, SMALL_WORDS,
};
use qs::{refusal, row, Config, RECORD_WORDS};
use std::collections::BTreeSet;

/// Depths 0 to 3, with the form flag off and on, and zeros in front of a number not counting and
/// counting.
fn configs() -> impl Iterator<Item = Config> {
    let forms = |depth| [false, true].map(|form| crate_config(depth, form));
    (0..4).flat_map(forms).flat_map(both_zeros)
}

/// At one depth, with all flags.
fn every_short_input(depth: u32) {
    if !reference_is_there() {
        return;
    }
    let mut counts = Counts::default();
    for config in configs().filter(|config| config.depth == depth) {
        every_string(BYTES, 3, |input| drop(counts.around(config, input)));
        let longest = if config.zeros { 4 } else { 5 };
        every_string(BYTES, longest, |input| counts.just(config, input));
        every_string(b"%2536[]&=", 4, |input| counts.just(config, input));
    }
    let expected: &[u32] = match depth {
        0 => &[0, 10, 26],
        _ => &[0, 4, 5, 6, 8, 9, 10, 11, 12, 13, 26],
    };
    counts.report(
        &format!("every input of up to 5 bytes over 12, or 4 where zeros count, and 4 over 9, depth {depth}"),
        expected,
    );
}

#[test]
fn every_short_input_at_depth_0() {
    every_short_input(0);
}

#[test]
fn every_short_input_at_depth_1() {
    every_short_input(1);
}

#[test]
fn every_short_input_at_depth_2() {
    every_short_input(2);
}

#[test]
fn every_short_input_at_depth_3() {
    every_short_input(3);
}

/// Inputs out of pieces that reach below the depth sooner than single bytes do.
#[test]
fn pieces() {
    if !reference_is_there() {
        return;
    }
    const PIECES: [&[u8]; 12] = [
        b"a", b"1", b"%31", b"[a]", b"[1]", b"[]", b"[b", b"]", b"=", b"&", b"&a[a]", b"%5B",
    ];
    let mut counts = Counts::default();
    for config in configs() {
        every_list(&PIECES, 4 + usize::from(whole()), b"", |input| {
            counts.just(config, input)
        });
    }
    counts.report(
        "inputs out of pieces, at 16 settings",
        &[0, 4, 5, 6, 7, 8, 9, 10, 11, 12, 13, 26],
    );
}

/// Pairs that meet in the same maps and sequences.
#[test]
fn lists_of_pairs() {
    if !reference_is_there() {
        return;
    }
    const PAIRS: [&[u8]; 26] = [
        b"",
        b"=",
        b"=v",
        b"[]",
        b"[]=v",
        b"a",
        b"a=",
        b"a=v",
        b"%31=v",
        b"1",
        b"a[]",
        b"a[]=v",
        b"a[b]",
        b"a[b]=v",
        b"a[1]=v",
        b"a[%31]=",
        b"a[b][]",
        b"a[b][]=v",
        b"a[b][c]=v",
        b"a[b][1]",
        b"a[b][%31]=",
        b"a[b][c",
        b"a[b][c=v",
        b"a[b][==v",
        b"a[b][c][]=v",
        b"a[b][c][d]=v",
    ];
    let mut counts = Counts::default();
    for config in configs() {
        every_list(&PAIRS, 3 + usize::from(whole()), b"&", |input| {
            counts.just(config, input)
        });
    }
    counts.report(
        "lists of pairs, at 16 settings",
        &[0, 5, 6, 7, 8, 9, 10, 26],
    );
}

/// Keys and values of any bytes, raw and escaped, in a few places.
fn bytes_query(random: &mut Random, pairs: usize) -> Vec<u8> {
    const PLACES: [(&[u8], &[u8]); 5] = [
        (b"", b""),
        (b"a[", b"]"),
        (b"a[b][", b"]"),
        (b"a[b][c][", b""),
        (b"", b"[]"),
    ];
    let mut part = |longest: usize| {
        let mut part = Vec::new();
        for _ in 0..random.below(longest) {
            match random.below(4) {
                0 => part.push(random.byte()),
                1 => part.extend(format!("%{:02X}", random.byte()).bytes()),
                2 => part.extend(random.string(b"%+&=[] 0123456789", 1)),
                _ => part.extend(random.string(b"0123456789", 1)),
            }
        }
        (part, PLACES[random.below(PLACES.len())])
    };
    let mut pair = || {
        let ((key, (before, behind)), (value, _)) = (part(5), part(7));
        [before, &key, behind, b"=", &value].concat()
    };
    let pairs: Vec<Vec<u8>> = (0..pairs).map(|_| pair()).collect();
    pairs.join(&b'&')
}

#[test]
fn random_and_damaged_inputs() {
    if !reference_is_there() {
        return;
    }
    let mut random = Random::new(61);
    let mut counts = Counts::default();
    for turn in 0..times(20_000) {
        let config = any_config(&mut random);
        let pairs = 1 + random.below(8);
        let mut input = match turn % 5 {
            0 => query(&mut random, pairs),
            1 => fields_query(&mut random, pairs),
            2 => deep_query(&mut random, config.depth, pairs),
            3 => bytes_query(&mut random, pairs),
            _ => mixture(&mut random, 12),
        };
        if random.below(8) == 0 {
            random.damage(&mut input);
        }
        counts.around(config, &input);
    }
    for _ in 0..times(10) {
        let config = random_config(&mut random);
        let length = random.below(qs::MAX_LEN + 1);
        let input = long_query(&mut random, length);
        counts.just(config, &input);
    }
    counts.report(
        "random and damaged inputs",
        &[0, 4, 5, 6, 7, 8, 9, 10, 11, 12, 13, 26],
    );
}

/// At each depth from 0 to 64, inputs that reach it.
#[test]
fn every_depth() {
    if !reference_is_there() {
        return;
    }
    let mut random = Random::new(62);
    let mut counts = Counts::default();
    for depth in 0..=qs::MAX_DEPTH {
        for form in [false, true] {
            for turn in 0..times(100) {
                let input = deep_query(&mut random, depth, 1 + turn % 8);
                let [off, on] = both_zeros(crate_config(depth, form));
                counts.around(if turn % 2 == 0 { off } else { on }, &input);
            }
        }
    }
    counts.report("inputs that reach the depth", &[0, 5, 11, 26]);
}

/// Long inputs of every kind, in records that were made in any order.
#[test]
fn kinds() {
    if !reference_is_there() {
        return;
    }
    let mut counts = Counts::default();
    for Kind { depth, make, .. } in USUAL.iter().chain(&HARD) {
        for config in both_zeros(crate_config(*depth, false)) {
            for length in [700, times(6_000).min(qs::MAX_LEN)] {
                counts.just(config, &make(length));
            }
        }
    }
    counts.report("every kind of long input", &[0, 26]);
}

/// Records and text that may not suffice, so that a reading is refused before the output is looked
/// at.
#[test]
fn every_small_buffer() {
    let mut counts = Counts::default();
    let outs = [0, 1, 2, 3, 4, 5, 9];
    for depth in [0, 5] {
        let config = crate_config(depth, true);
        every_string(b"a0[]&=%", 3, |input| {
            for words in SMALL_WORDS {
                for bytes in 0..4 {
                    for out in outs {
                        counts.compare(config, input, Sizes { words, bytes, out });
                    }
                }
            }
        });
    }
    counts.report(
        "every input of up to 3 bytes over 7, in 168 sizes",
        &[0, 3, 4, 5, 14, 15, 26],
    );
}

#[test]
fn random_buffers() {
    let mut random = Random::new(63);
    let mut counts = Counts::default();
    for turn in 0..times(40_000) {
        let config = random_config(&mut random);
        let pairs = 1 + random.below(6);
        let input = match turn % 2 {
            0 => query(&mut random, pairs),
            _ => bytes_query(&mut random, pairs),
        };
        let sizes = Sizes {
            words: random.below(18 * RECORD_WORDS),
            bytes: random.below(input.len() + 1),
            out: random.below(2 * input.len() + 2),
        };
        counts.compare(config, &input, sizes);
    }
    let all: Vec<u32> = (3..16).chain([0, 26]).collect();
    counts.report("random inputs in random buffers", &all);
}

// Refusals by hand.

/// Every output from none to longer than it need be: it is refused below the last byte, and nowhere
/// else. That of the empty ticket needs no byte.
#[test]
fn every_output() {
    let mut counts = Counts::default();
    for (input, length) in [
        ("", 0),
        ("&", 1),
        ("=", 1),
        ("a=1", 3),
        ("a&a", 7),
        ("a[b][c]=1&7", 11),
    ] {
        let ample = Sizes::ample(input.len());
        for out in 0..length + 20 {
            let got = counts.compare(Config::default(), input.as_bytes(), Sizes { out, ..ample });
            let short = out < length;
            assert_eq!(got.reading.number, if short { 26 } else { 0 });
            assert_eq!(got.length as usize, if short { 0 } else { length });
        }
    }
    counts.report("every output for 6 inputs", &[0, 26]);
}

/// 26, by hand: counts, records and text are those of the reading, and the output is as it was. A
/// refused reading comes before it.
#[test]
fn a_short_output() {
    let config = Config::default();
    let sizes = |out| Sizes {
        words: 3 * RECORD_WORDS,
        bytes: 4,
        out,
    };
    for out in [0, 1, 2] {
        let got = write(config, b"a=1", sizes(out));
        let reading = got.reading;
        assert_eq!((reading.number, reading.place), (refusal::SHORT_OUTPUT, 0));
        assert_eq!((reading.records, reading.bytes, got.length), (2, 2, 0));
        assert_eq!(
            row::record(&reading.words, 0),
            Some(&[1, 0, 0, 0, 0, 0, 1, 0])
        );
        assert_eq!(
            row::record(&reading.words, 1),
            Some(&[3, 2, 0, 1, 1, 1, 0, 0])
        );
        assert_eq!(row::record(&reading.words, 2), Some(&[0; RECORD_WORDS]));
        assert_eq!(reading.text, *b"a1\0\0");
        assert_eq!(got.out, out_before(out));
    }
    for (input, number) in [("a[", 4), ("a&a", 14), ("abcde", 15)] {
        for out in [0, 500] {
            let got = write(config, input.as_bytes(), sizes(out));
            let reading = got.reading;
            assert_eq!((reading.number, reading.records), (number, 0), "{input}");
            assert_eq!((reading.words, reading.text), (vec![0; 24], vec![0; 4]));
            assert_eq!((got.length, got.out), (0, out_before(out)));
        }
    }
}

/// Refusals 1 to 3 leave every buffer as it was.
#[test]
fn untouched_buffers() {
    let mut counts = Counts::default();
    let long = [b'&'; qs::MAX_LEN + 1];
    let deep = |depth| crate_config(depth, false);
    let (usual, above) = (Config::default(), qs::MAX_DEPTH + 1);
    let cases: [(Config, &[u8], usize, u32); 4] = [
        (deep(above), b"a=1", 8 * RECORD_WORDS, refusal::TOO_DEEP),
        (deep(u32::MAX), b"a=1", 8 * RECORD_WORDS, refusal::TOO_DEEP),
        (usual, &long, 8 * RECORD_WORDS, refusal::TOO_LONG),
        (usual, b"a=1", RECORD_WORDS - 1, refusal::NO_RECORD),
    ];
    for (config, input, words, number) in cases {
        for out in [0, 1, 3, 1_000] {
            let bytes = 8;
            let sizes = Sizes { words, bytes, out };
            let got = counts.compare(config, input, sizes);
            assert_eq!((got.reading.number, got.reading.place), (number, 0));
            let left = (got.reading.words, got.reading.text, got.out);
            assert_eq!((got.length, left), (0, sizes.buffers()));
        }
    }
}

/// An output above the limit holds what just reaches it, and no byte more.
#[test]
fn the_length_limit() {
    if !reference_is_there() {
        return;
    }
    let mut counts = Counts::default();
    // `=` is written in three bytes, and behind `a=` a letter in one
    let value = |escapes: usize, letters: usize| {
        [b"a=", &b"=".repeat(escapes)[..], &b"x".repeat(letters)].concat()
    };
    // elements of one byte are written in five and an `&`
    let elements = |count: usize, last: &[u8]| [&b"a&".repeat(count)[..], last].concat();
    let cases = [
        (value(0, 65_533), 65_535),
        (value(1, 65_530), 65_535),
        (value(1, 65_531), 65_536),
        (value(21_844, 1), 65_535),
        (value(21_844, 2), 65_536),
        (value(21_845, 0), 65_537),
        (value(65_533, 0), 196_601),
        (elements(16_383, b"a=1"), 65_537),
        (elements(16_383, b"a="), 65_536),
        (elements(16_383, b"a"), 65_535),
        (b"%&".repeat(32_767), 196_601),
        (b"]".repeat(65_535), 196_605),
    ];
    for (input, length) in cases {
        let whole = model::written(settings(Config::default()), &input);
        assert_eq!(whole.map(|ticket| ticket.len()), Some(length));
        let (words, bytes) = qs::room(input.len());
        for out in [0, qs::MAX_LEN - 1, qs::MAX_LEN, qs::MAX_LEN + 1, 200_000] {
            let got = counts.compare(Config::default(), &input, Sizes { words, bytes, out });
            let fits = length <= out.min(qs::MAX_LEN);
            let expected = if fits { (0, length) } else { (26, 0) };
            assert_eq!((got.reading.number, got.length as usize), expected);
            back(Config::default(), &input, &got);
        }
    }
    counts.report("inputs whose tickets are about as long as may be", &[0, 26]);
}

// Tickets by hand.

/// The worked examples of the crate `ser`.
#[test]
fn examples() {
    if !reference_is_there() {
        return;
    }
    let at_depth = |depth| crate_config(depth, false);
    let form_on = crate_config(5, true);
    let usual = [
        ("b=2&a=1", "a=1&b=2"),
        ("b[y]=1&a=2&b[x]=3", "a=2&b[x]=3&b[y]=1"),
        ("a&&10=x&9=y", "9=y&10=x&a"),
        ("a[b]=1&a=2&0=x", "0=x&a[b]=1&a=2"),
        ("a=1&=2&7=3", "7=3&a=1&=2"),
        ("a[b][c]=1&a[b]=2&a=3", "a[b][c]=1&a[b]=2&a=3"),
        ("a[b]&a", "a[b]&a"),
        ("[a][b][0]=1", "a[b][0]=1"),
        ("a=1&a=&a", "a[]=1&a[]=&a[]"),
        ("a[b][]=1", "a[b][]=1"),
        ("a[b]=1&a=2&a=3", "a[b]=1&a=2&a=3"),
        ("a=1&=2&=3", "a=1&=2&=3"),
        ("a+b=c+d", "a+b=c+d"),
        ("%25%2B%26%3D%5B%5D=1", "%25%2b%26%3d%5b%5d=1"),
        ("a=%%2B%26=[]", "a=%25%252B%26%3d%5b%5d"),
        ("%31=a&1=b", "1=b&%31=a"),
        ("a[1%32]=1", "a[%312]=1"),
        ("4294967296=a", "4294967296=a"),
        ("007=a", "7=a"),
        ("a/?~=%2F%7E", "a/?~=/~"),
        ("&&", "&"),
        ("", ""),
        ("=", "="),
        ("=x", "=x"),
        ("=1&=2", "[]=1&[]=2"),
        ("[]&[]=", "[]&[]="),
        ("%&%", "%25[]&%25[]"),
    ];
    let others = [
        (at_depth(1), "a[b][c]=v", "a[b][c%5d=v"),
        (at_depth(1), "[a][b]=1", "a[%5bb%5d]=1"),
        (at_depth(1), "a[b][==&a[b][&c", "a[b][%26c&a[b][%3d="),
        (at_depth(2), "[a][b][c]=1", "a[b][%5bc%5d]=1"),
        (at_depth(0), "a[b]=1", "a%5bb%5d=1"),
        (at_depth(0), "a=1&a&a=", "a=1&a&a="),
        (at_depth(1), "a[b][c=1&a[b][c=2", "a[b][c=1&a[b][c=2"),
        (at_depth(1), "a[b][]=1&a[b][]=2", "a[b][]=1&a[b][]=2"),
        (form_on, "a%5bb%5d=%5B", "a%5bb%5d=%5b"),
        (at_depth(0), "=1&=2", "=1&=2"),
    ];
    let usual = usual.map(|(input, ticket)| (Config::default(), input, ticket));
    for (config, input, ticket) in usual.into_iter().chain(others) {
        let got = written(config, input.as_bytes());
        assert_eq!(got.escape_ascii().to_string(), ticket, "{config:?} {input}");
    }
}

/// Every byte, as it comes and as an escape, alone and between others, in a root key, a bracket, a
/// key at the depth and a value. Those with a meaning are escaped, the space is a `+`, and the
/// others stand as they are; a digit that is a whole key is escaped.
#[test]
fn every_byte() {
    if !reference_is_there() {
        return;
    }
    let config = crate_config(1, true);
    for byte in 0..=255 {
        let plain = match byte {
            b' ' => b"+".to_vec(),
            b'%' => b"%25".to_vec(),
            b'+' => b"%2b".to_vec(),
            b'&' => b"%26".to_vec(),
            b'=' => b"%3d".to_vec(),
            b'[' => b"%5b".to_vec(),
            b']' => b"%5d".to_vec(),
            _ => vec![byte],
        };
        let key = match byte {
            b'0'..=b'9' => format!("%3{}", char::from(byte)).into_bytes(),
            _ => plain.clone(),
        };
        // not `%5B` and `%5D`, which are brackets
        let escape = format!("%{byte:02x}").into_bytes();
        for (before, behind) in [
            (&b"k"[..], &b"k=v"[..]),
            (b"a[k", b"k]=v"),
            (b"a[b][", b"=v"),
            (b"a[b][k", b"k"),
            (b"a=", b""),
            (b"a=1", b"1&b"),
            (b"=", b""),
        ] {
            let input = [before, &escape, behind].concat();
            let expected = [before, &plain, behind].concat();
            assert_eq!(written(config, &input), expected, "{}", start(&input));
            // Unescaped, where it may be a mark.
            let raw = [before, &[byte], behind].concat();
            Counts::default().around(config, &raw);
        }
        for (before, behind) in [
            (&b""[..], &b""[..]),
            (b"", b"=v"),
            (b"a[", b"]=v"),
            (b"a[", b"]&c"),
        ] {
            let input = [before, &escape, behind].concat();
            let expected = [before, &key, behind].concat();
            assert_eq!(written(config, &input), expected, "{}", start(&input));
        }
    }
}

/// A String key that would be read as an Int has its first digit escaped, up to the greatest Int
/// and with any zeros before it.
#[test]
fn keys_of_digits() {
    if !reference_is_there() {
        return;
    }
    let zeros = "0".repeat(40);
    for (digits, int) in [
        ("0", true),
        ("7", true),
        ("007", true),
        (&zeros, true),
        (&format!("{zeros}7"), true),
        ("4294967295", true),
        ("4294967296", false),
        ("9999999999", false),
        (&format!("{zeros}4294967295"), true),
        (&format!("{zeros}4294967296"), false),
        ("18446744073709551616", false),
        (&"1".repeat(40), false),
        ("7a", false),
        ("a7", false),
    ] {
        let escape = format!("%{:02X}{}", digits.as_bytes()[0], &digits[1..]);
        let escaped = match int {
            true => format!("%{:02x}{}", digits.as_bytes()[0], &digits[1..]),
            false => digits.to_owned(),
        };
        for (before, behind) in [
            ("", ""),
            ("", "=v"),
            ("", "[b]=v"),
            ("a[", "]=v"),
            ("a[b][", "][c]"),
        ] {
            let input = format!("{before}{escape}{behind}");
            let ticket = format!("{before}{escaped}{behind}");
            let got = written(Config::default(), input.as_bytes());
            assert_eq!(got.escape_ascii().to_string(), ticket, "{input}");
        }
        // Given as it is, it is an Int, and written without the zeros that lead.
        let got = written(Config::default(), digits.as_bytes());
        let short = digits.trim_start_matches('0');
        let ticket = match (int, short) {
            (true, "") => "0",
            (true, short) => short,
            (false, _) => digits,
        };
        assert_eq!(got.escape_ascii().to_string(), ticket);
    }
}

/// The last brackets that nest, and those past them, at every depth: a key there keeps its first
/// `[`, and is given twice without `[]`.
#[test]
fn keys_at_the_depth() {
    if !reference_is_there() {
        return;
    }
    for depth in 1..=qs::MAX_DEPTH {
        let config = crate_config(depth, false);
        let path = format!("a{}", "[b]".repeat(depth as usize));
        for (behind, ticket) in [
            ("", path.clone()),
            ("[]", format!("{path}[]")),
            ("[c]", format!("{path}[c%5d")),
            ("[c", format!("{path}[c")),
            ("[1", format!("{path}[1")),
            ("[=[&", format!("{path}[%3d%5b")),
            ("[c]&", format!("{path}[c%5d")),
        ] {
            let got = written(config, format!("{path}{behind}").as_bytes());
            assert_eq!(got.escape_ascii().to_string(), ticket, "{depth}");
        }
        let twice = format!("{path}[c=1&{path}[c=2");
        assert_eq!(written(config, twice.as_bytes()), twice.as_bytes());
        let elements = format!("{path}=1&{path}=2");
        let in_brackets = format!("{path}[]=1&{path}[]=2");
        assert_eq!(written(config, elements.as_bytes()), in_brackets.as_bytes());
    }
}

// How long a ticket is at most.

/// How much a written ticket has below three bytes for each of its input's, and two more.
fn below_the_longest(config: Config, input: &[u8]) -> Option<usize> {
    let ticket = model::written(settings(config), input)?;
    let longest = 3 * input.len() + 2;
    let below = longest.checked_sub(ticket.len());
    assert!(
        below.is_some(),
        "{config:?} '{}': {} bytes",
        start(input),
        ticket.len()
    );
    below
}

/// A written ticket never has more than three bytes for each of its input's, and two more. Those
/// short inputs reach it that give every key at least twice and without a value, in bytes that are
/// written in three each.
#[test]
fn the_longest_of_short_inputs() {
    let mut reached = BTreeSet::new();
    for config in configs() {
        for (alphabet, longest) in [(BYTES, 5), (&b"%]=[&a"[..], 7)] {
            every_string(alphabet, longest, |input| {
                if below_the_longest(config, input) == Some(0) {
                    reached.insert(input.to_vec());
                }
            });
        }
    }
    let shown: Vec<String> = reached.iter().map(|input| start(input)).collect();
    println!(
        "{} inputs reach the longest: {}",
        shown.len(),
        shown.join(" ")
    );
    for input in &reached {
        let keys: Vec<&[u8]> = input.split(|&byte| byte == b'&').collect();
        for key in &keys {
            let times = keys.iter().filter(|other| other == &key).count();
            let mut decoded = vec![0; key.len()];
            let length = qs::decode(key, &mut decoded);
            let escaped = decoded.iter().all(|byte| b"%+&=[]".contains(byte));
            assert!(
                times > 1 && length == Some(key.len()) && escaped,
                "{}",
                start(input)
            );
        }
    }
    assert!(reached.contains(&b"%&%"[..]));
}

#[test]
fn the_longest_of_long_inputs() {
    let mut random = Random::new(64);
    let mut least = usize::MAX;
    for turn in 0..times(20_000) {
        let config = any_config(&mut random);
        let length = 1 + random.below(60);
        let input = match turn % 4 {
            0 => random.string(b"%]=[&a", length),
            1 => random.string(b"%%%]&&=", length),
            2 => deep_query(&mut random, config.depth, 1 + length / 8),
            _ => query(&mut random, 1 + length / 8),
        };
        if let Some(below) = below_the_longest(config, &input) {
            least = least.min(below);
        }
    }
    println!("of random inputs the longest has {least} bytes below three for each and two");
    for count in [1, 2, 100, 5_000, 10_921] {
        let input = [&b"%&".repeat(count)[..], b"%"].concat();
        let got = written(Config::default(), &input);
        assert_eq!(got.len(), 3 * input.len() + 2);
        assert_eq!(got.len(), qs::write_room(input.len()));
    }
}

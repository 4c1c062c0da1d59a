//! Query strings to read: from a grammar, damaged, and long.

use super::Random;

/// Bytes that a reading tells apart.
pub const BYTES: &[u8] = b"a10[]&=%+5BD";

const KEYS: [&[u8]; 12] = [
    b"a",
    b"b",
    b"c",
    b"0",
    b"1",
    b"01",
    b"%61",
    b"%31",
    b"+",
    b"4294967295",
    b"4294967296",
    b"\xC3\xA9",
];
const VALUES: [&[u8]; 8] = [
    b"1",
    b"x",
    b"Fog+at+dawn",
    b"%26%3D",
    b"%",
    b"%4",
    b"%%41",
    b"=[",
];
const MARKS: [&[u8]; 11] = [
    b"&", b"=", b"[", b"]", b"[]", b"[b]", b"%5B", b"%5D", b"%5b", b"&&", b"%",
];

/// A pair such as `a[b][]=x`, often one that clashes with others of few keys.
fn pair(random: &mut Random, input: &mut Vec<u8>) {
    if random.below(8) > 0 {
        input.extend_from_slice(KEYS[random.below(KEYS.len())]);
    }
    for _ in 0..random.below(5) {
        let (open, close): (&[u8], &[u8]) = match random.below(6) {
            0 => (b"%5B", b"%5D"),
            1 => (b"[", b"%5D"),
            _ => (b"[", b"]"),
        };
        input.extend_from_slice(open);
        if random.below(4) > 0 {
            input.extend_from_slice(KEYS[random.below(KEYS.len())]);
        }
        input.extend_from_slice(close);
    }
    match random.below(4) {
        0 => {}
        1 => input.push(b'='),
        _ => {
            input.push(b'=');
            input.extend_from_slice(VALUES[random.below(VALUES.len())]);
        }
    }
}

/// So many pairs, in one case out of three damaged.
pub fn query(random: &mut Random, pairs: usize) -> Vec<u8> {
    let mut input = Vec::new();
    for i in 0..pairs {
        if i > 0 {
            input.push(b'&');
        }
        pair(random, &mut input);
    }
    if random.below(3) == 0 {
        for _ in 0..1 + random.below(3) {
            let at = random.below(input.len() + 1);
            match random.below(3) {
                0 => {
                    let mark = MARKS[random.below(MARKS.len())];
                    input.splice(at..at, mark.iter().copied());
                }
                _ => random.damage(&mut input),
            }
        }
    }
    input
}

/// Names of fields, most of which [`fields_query`] often has; `1` and `4294967295` name Int keys
/// too.
pub const NAMES: [&str; 8] = ["a", "b", "1", "", "c", "4294967295", "\u{e9}", "a[b]"];

/// So many pairs of few names, with texts and lists of every kind, well-formed or not, in one case
/// out of eight damaged.
pub fn fields_query(random: &mut Random, pairs: usize) -> Vec<u8> {
    const NAMED: [&[u8]; 12] = [
        b"a",
        b"a",
        b"a",
        b"b",
        b"b",
        b"%31",
        b"1",
        b"",
        b"%C3%A9",
        b"%FF",
        b"a%5Bb%5D",
        b"c",
    ];
    const PLACES: [&[u8]; 12] = [
        b"", b"", b"", b"[]", b"[]", b"[0]", b"[0]", b"[1]", b"[1]", b"[2]", b"[b]", b"[0][]",
    ];
    const TEXTS: [&[u8]; 8] = [
        b"", b"=", b"=1", b"=x+y", b"=%C3%A9", b"=%C3", b"=\xFF", b"=%%41",
    ];
    // One or two names for a whole query make lists; all make clashes seldom.
    let names = 1 + random.below(3);
    let first = random.below(NAMED.len());
    let style = random.below(3);
    let mut input = Vec::new();
    for i in 0..pairs {
        if i > 0 {
            input.push(b'&');
        }
        input.extend_from_slice(NAMED[(first + random.below(names)) % NAMED.len()]);
        input.extend_from_slice(match style {
            0 => PLACES[random.below(PLACES.len())],
            1 => PLACES[5 + random.below(5)],
            _ => PLACES[random.below(5)],
        });
        input.extend_from_slice(TEXTS[random.below(TEXTS.len())]);
    }
    if random.below(8) == 0 {
        random.damage(&mut input);
    }
    input
}

/// So many pairs whose brackets end about where those of a depth do. Most lead the same way until
/// then, and some are given twice.
pub fn deep_query(random: &mut Random, depth: u32, pairs: usize) -> Vec<u8> {
    const ENDS: [&[u8]; 16] = [
        b"", b"", b"", b"[]", b"[]", b"[1]", b"[%31]", b"[+]", b"[%5B]", b"[b", b"[b]c", b"[=",
        b"[&", b"[[", b"[1", b"[%5D",
    ];
    const VALUES: [&[u8]; 5] = [b"", b"=", b"=1", b"=%2B[", b"=x+y"];
    let mut rows: Vec<Vec<u8>> = Vec::new();
    for _ in 0..pairs {
        if !rows.is_empty() && random.below(4) == 0 {
            rows.push(rows[random.below(rows.len())].clone());
            continue;
        }
        let mut row = b"a".to_vec();
        let brackets =
            (depth as usize + random.below(3)).saturating_sub(random.below(3) * random.below(2));
        for _ in 0..brackets {
            row.extend_from_slice(match random.below(4 + 4 * depth as usize) {
                0 => b"[c]",
                1 => b"[0]",
                _ => b"[b]",
            });
        }
        row.extend_from_slice(ENDS[random.below(ENDS.len())]);
        row.extend_from_slice(VALUES[random.below(VALUES.len())]);
        rows.push(row);
    }
    rows.join(&b'&')
}

/// A query of close to so many bytes that is mostly accepted: every pair has a key of its own kind.
pub fn long_query(random: &mut Random, length: usize) -> Vec<u8> {
    let mut input = Vec::new();
    while input.len() < length {
        let n = random.below(400);
        let next = match random.below(5) {
            0 => format!("k{n}={n}&"),
            1 => format!("m[{n}][x]=%{:02X}+y&", n % 256),
            2 => format!("s[]={n}&"),
            3 => format!("%6B{n}&"),
            _ => format!("{n}=&"),
        };
        input.extend_from_slice(next.as_bytes());
    }
    input.truncate(length);
    input
}

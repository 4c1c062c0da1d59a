//! Kinds of long input, each made to a length: tickets as they come, and what is hard for a reader
//! that looks for the place of every key among many.

use super::orders::{self, Order};
use super::Random;

/// A kind of input: its name, the depth that it is read at, and an input of at most so many bytes,
/// which is accepted.
pub struct Kind {
    pub name: &'static str,
    pub depth: u32,
    pub make: fn(usize) -> Vec<u8>,
}

const fn kind(name: &'static str, make: fn(usize) -> Vec<u8>) -> Kind {
    let depth = 5;
    Kind { name, depth, make }
}

/// Tickets as they come: flat, nested, escaped, with lists of values and of pages.
pub const USUAL: [Kind; 20] = [
    kind("flat, rising", |length| flat(length, orders::rising)),
    kind("flat, shuffled", |length| flat(length, orders::shuffled)),
    kind("flat, falling", |length| flat(length, orders::falling)),
    kind("deep, 50 keys", |length| {
        pairs(length, |i| format!("a[b][c][d][e][k{}]=v", i % 50))
    }),
    Kind {
        name: "deep, 64 levels",
        depth: 64,
        make: |length| pairs(length, deepest),
    },
    kind("escapes, short values", |length| {
        pairs(length, |i| {
            format!("%6B%65%79{i}=%46%6F%67+%61%74+%64%61%77%6E")
        })
    }),
    kind("escapes, long values", |length| {
        let value = "%C3%A9+%E2%82%AC%20".repeat(40);
        pairs(length, |i| format!("k{i}={value}"))
    }),
    kind("plain, long values", |length| {
        let value = "the quick brown fox ".repeat(20);
        pairs(length, |i| format!("k{i}={value}"))
    }),
    kind("plates", |length| pairs(length, plate)),
    kind("sequence a[]=1", |length| pairs(length, |_| "a[]=1")),
    kind("repeated a=1&a=2", |length| {
        pairs(length, |i| format!("a={}", i % 10))
    }),
    kind("repeated a&a&a", |length| pairs(length, |_| "a")),
    kind("repeated, 200 keys", |length| {
        let mut random = Random::new(9);
        pairs(length, |_| format!("key{}=v", random.below(200)))
    }),
    kind("Ints, shuffled", |length| {
        ordered(length, 8, orders::shuffled, |i| format!("{i}=v"))
    }),
    kind("pages 0=v&1=v", |length| {
        pairs(length, |i| format!("{i}=v"))
    }),
    kind("pages p[0]=v&p[1]=v", |length| {
        pairs(length, |i| format!("p[{i}]=v"))
    }),
    kind("pages of forty digits", |length| {
        pairs(length, |i| format!("{i:040}=v"))
    }),
    kind("pages of forty digits in brackets", |length| {
        pairs(length, |i| format!("p[{i:040}]=v"))
    }),
    kind("forty digits, too large", |length| {
        pairs(length, |i| format!("1{i:039}=v"))
    }),
    kind("ampersands", |length| vec![b'&'; length]),
];

/// Orders and mixtures that make a reader search or walk far.
pub const HARD: [Kind; 17] = [
    kind("two sequences in turns", |length| turns(length, 2)),
    kind("300 sequences in turns", |length| turns(length, 300)),
    kind("sequences 1024 apart", |length| {
        let both = ["a[]=1", "b[]=1"];
        apart(length, 1024, both, both.iter().cycle())
    }),
    kind("36 bytes alike", |length| {
        let alike = "p".repeat(36);
        ordered(length, 44, orders::shuffled, |i| format!("{alike}{i:05}=v"))
    }),
    kind("comb", |length| flat(length, orders::comb)),
    kind("comb, falling", |length| flat(length, orders::falling_comb)),
    kind("zigzag", |length| flat(length, orders::zigzag)),
    kind("inside-out", |length| flat(length, orders::inside_out)),
    kind("dense gap", |length| {
        // a third of the keys comes twice
        ordered(length, 12, orders::dense_gap, |i| format!("k{i:05}=v"))
    }),
    kind("empty key behind Ints", empty_key_behind_ints),
    kind("falling twice", |length| {
        flat(length, orders::falling_twice)
    }),
    kind("two-byte keys", |length| {
        ordered(length, 3, orders::shuffled, two_bytes)
    }),
    kind("two-byte keys, two runs", |length| {
        ordered(length, 3, orders::two_runs, two_bytes)
    }),
    kind("two-byte keys, two falling runs", |length| {
        ordered(length, 3, orders::two_falling_runs, two_bytes)
    }),
    kind("8 maps in turns", |length| maps(length, 8)),
    kind("400 maps in turns", |length| maps(length, 400)),
    kind("maps 1024 apart", |length| {
        let pair = |i: usize| format!("{}[k{:04}]=v", ["a", "b"][i % 2], i / 2);
        let rest = orders::shuffled(length / 11).into_iter().map(pair);
        apart(length, 1024, ["a[x]=1", "b[x]=1"], rest)
    }),
];

/// As many of the pairs as fit so many bytes, an `&` between each two.
pub fn joined<P: AsRef<[u8]>>(length: usize, pairs: impl IntoIterator<Item = P>) -> Vec<u8> {
    let mut input = Vec::new();
    for pair in pairs {
        let pair = pair.as_ref();
        if input.len() + 1 + pair.len() > length {
            break;
        }
        if !input.is_empty() {
            input.push(b'&');
        }
        input.extend_from_slice(pair);
    }
    input
}

/// The pairs of 0, 1, 2 and so on.
pub fn pairs<P: AsRef<[u8]>>(length: usize, pair: impl FnMut(usize) -> P) -> Vec<u8> {
    joined(length, (0..).map(pair))
}

/// The pairs of the numbers in an order, where about so many bytes are one pair and its `&`.
pub fn ordered<P: AsRef<[u8]>>(
    length: usize,
    one: usize,
    order: Order,
    pair: impl FnMut(usize) -> P,
) -> Vec<u8> {
    joined(length, order(length / one).into_iter().map(pair))
}

/// Keys of one length, which stand in the order of their numbers.
fn flat(length: usize, order: Order) -> Vec<u8> {
    ordered(length, 9, order, |i| format!("k{i:05}=v"))
}

/// A plate with its page and its caption.
pub fn plate(i: usize) -> String {
    let page = i + 1;
    format!("plate[{i}][page]={page}&plate[{i}][caption]=Fog+at+dawn")
}

/// A path of 64 brackets, one of 256 under each of three keys.
fn deepest(i: usize) -> String {
    let bracket = |level: usize| match i >> (level % 8) & 1 {
        0 => "[a]",
        _ => "[b]",
    };
    let path: String = (0..64).map(bracket).collect();
    format!("r{}{path}=x", i % 3)
}

/// An element for each of so many sequences, and again.
fn turns(length: usize, sequences: usize) -> Vec<u8> {
    pairs(length, |i| format!("s{}[]=1", i % sequences))
}

/// Keys for so many maps, in no order.
fn maps(length: usize, maps: usize) -> Vec<u8> {
    ordered(length, 11, orders::shuffled, |i| {
        format!("m{}[k{:04}]=v", i % maps, i / maps)
    })
}

/// Two pairs, each of which makes a record with one child, so many records from each other; and
/// then the rest. What is too short for that has the first pair alone.
pub fn apart<P: AsRef<[u8]>>(
    length: usize,
    distance: usize,
    both: [&str; 2],
    rest: impl IntoIterator<Item = P>,
) -> Vec<u8> {
    // falling, which any reader finds easy
    let between = (0..distance - 2).rev().map(|i| format!("f{i:04}"));
    let start = std::iter::once(both[0].to_owned())
        .chain(between)
        .chain([both[1].to_owned()]);
    let mut input = joined(length, start);
    let rest = joined(length.saturating_sub(input.len()), rest);
    if !rest.is_empty() {
        input.push(b'&');
        input.extend_from_slice(&rest);
    }
    input
}

/// A map of Int keys, and then values for the map itself, which go under its empty key behind all
/// others.
fn empty_key_behind_ints(length: usize) -> Vec<u8> {
    let mut input = pairs(length / 2, |i| format!("a[{i}]=1"));
    while input.len() + 4 <= length {
        input.extend_from_slice(b"&a=2");
    }
    input
}

/// A key of two bytes. Below 50,176 each number has its own, and they stand in the order of their
/// numbers.
pub fn two_bytes(i: usize) -> Vec<u8> {
    const OTHERS: &[u8] = b"&=[]%+0123456789";
    let bytes: Vec<u8> = (16..=255).filter(|byte| !OTHERS.contains(byte)).collect();
    vec![bytes[i / bytes.len()], bytes[i % bytes.len()]]
}

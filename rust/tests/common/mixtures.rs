//! Many keys of one shape, and pairs that put them somewhere: what a reader that remembers where it
//! was has to tell apart.

use super::kinds::two_bytes;
use super::orders::{Order, ORDERS};
use super::Random;

/// A key by its number, as it is written in a query string.
pub type Shape = fn(usize) -> Vec<u8>;

/// Shapes of keys. But for the last they have a key of its own for each number below 4,000.
pub const SHAPES: [(&str, Shape); 19] = [
    ("five digits", |i| format!("k{i:05}").into_bytes()),
    ("no leading zeros", |i| format!("key{i}").into_bytes()),
    ("two bytes", two_bytes),
    ("7 bytes alike", |i| alike(7, i)),
    ("8 bytes alike", |i| alike(8, i)),
    ("9 bytes alike", |i| alike(9, i)),
    ("36 bytes alike", |i| alike(36, i)),
    ("the eighth byte", eighth_byte),
    ("prefixes of each other", |i| branching(b"x", i)),
    ("8 bytes alike and prefixes", |i| branching(b"abcdefgh", i)),
    ("zero bytes at the end", zeros_at_end),
    ("zero bytes behind 8", zeros_behind_eight),
    ("Ints", |i| i.to_string().into_bytes()),
    // from 1,953 on they are above the greatest Int, and Strings
    ("Ints far apart", |i| {
        (i * 2_200_013).to_string().into_bytes()
    }),
    // where zeros in front count, two out of three are Strings
    ("Ints with zeros in front", |i| {
        format!("{}{i}", "0".repeat(i % 3)).into_bytes()
    }),
    ("Ints and Strings", ints_and_strings),
    ("high bytes", high_bytes),
    ("escaped", |i| {
        format!("%6B+%C3%A9%{:02X}{i}", i % 256).into_bytes()
    }),
    ("few", |i| {
        format!("{}", (b'a' + (i % 26) as u8) as char).into_bytes()
    }),
];

/// So many bytes that all keys have, and then digits.
fn alike(bytes: usize, i: usize) -> Vec<u8> {
    format!("{}{i}", "p".repeat(bytes)).into_bytes()
}

/// Keys that differ in their eighth byte, half of them by its lowest bit alone; some end there,
/// others go on.
fn eighth_byte(i: usize) -> Vec<u8> {
    let mut key = b"pppppppA".to_vec();
    key[7] += (i % 16) as u8;
    key.extend_from_slice(&branching(b"", i / 16));
    key
}

/// The words over `a` and `b` by length, so that every key is the start of others.
fn branching(start: &[u8], i: usize) -> Vec<u8> {
    let mut key = start.to_vec();
    let mut rest = i;
    while rest > 0 {
        rest -= 1;
        key.push(b'a' + (rest % 2) as u8);
        rest /= 2;
    }
    key
}

/// Nine keys from three bytes, with none to eight zero bytes behind.
fn zeros_at_end(i: usize) -> Vec<u8> {
    format!("{}{}", three_letters(i / 9), "%00".repeat(i % 9)).into_bytes()
}

/// The same behind eight bytes that all have.
fn zeros_behind_eight(i: usize) -> Vec<u8> {
    format!("pppppppp{}{}", "%00".repeat(i % 9), three_letters(i / 9)).into_bytes()
}

fn three_letters(i: usize) -> String {
    let letter = |turn: u32| (b'a' + (i / 26usize.pow(turn) % 26) as u8) as char;
    [2, 1, 0].map(letter).iter().collect()
}

/// Ints, Strings that look like them, and others before and behind these.
fn ints_and_strings(i: usize) -> Vec<u8> {
    match i % 5 {
        0 | 1 => format!("{i}"),
        2 => format!("%3{}{i}", i % 10),
        3 => format!("{i}x"),
        _ => format!("s{i}"),
    }
    .into_bytes()
}

/// Bytes above 127, and a byte that comes last of all.
fn high_bytes(i: usize) -> Vec<u8> {
    vec![0x80 | (i >> 7) as u8, 0xFF, 0x80 | (i & 0x7F) as u8]
}

/// Where keys go: how many maps take turns, and the pair for the map of a turn and a key.
#[derive(Clone, Copy)]
pub struct Nesting {
    pub name: &'static str,
    maps: usize,
    pair: fn(usize, &[u8]) -> Vec<u8>,
}

const fn nesting(name: &'static str, maps: usize, pair: fn(usize, &[u8]) -> Vec<u8>) -> Nesting {
    Nesting { name, maps, pair }
}

pub const NESTINGS: [Nesting; 11] = [
    nesting("in the root", 1, |_, key| [key, b"=v"].concat()),
    nesting("in the root, without values", 1, |_, key| key.to_vec()),
    nesting("in one map", 1, |_, key| [b"m[", key, b"]="].concat()),
    nesting("in two maps", 2, in_map),
    nesting("in 8 maps", 8, in_map),
    nesting("in 70 maps", 70, in_map),
    // their records stand beside each other
    nesting(
        "in the root and two maps below",
        3,
        |turn, key| match turn {
            0 => [b"m[n][", key, b"]=v"].concat(),
            1 => [b"m[", key, b"]=v"].concat(),
            _ => [key, b"=v"].concat(),
        },
    ),
    nesting("in the depth", 3, |turn, key| {
        let path = format!("d[e][f{turn}][g][");
        [path.as_bytes(), key, b"]=%41"].concat()
    }),
    nesting("as maps", 1, |_, key| [key, b"[x]=1"].concat()),
    nesting("as maps of maps", 4, |turn, key| {
        [b"n[", key, format!("][{turn}][y]=+").as_bytes()].concat()
    }),
    nesting("as sequences", 1, |_, key| [key, b"[]=1"].concat()),
];

fn in_map(turn: usize, key: &[u8]) -> Vec<u8> {
    [format!("m{turn}[").as_bytes(), key, b"]=v"].concat()
}

impl Nesting {
    /// The pairs of keys in an order, each for the next of the maps.
    pub fn pairs(self, count: usize, order: Order, shape: Shape) -> Vec<Vec<u8>> {
        let turn = |(turn, number): (usize, usize)| (self.pair)(turn % self.maps, &shape(number));
        order(count).into_iter().enumerate().map(turn).collect()
    }
}

/// A pair for each of the maps that get values themselves, so that they are maps before.
const MAPS: &[u8] = b"m[k]&m1[k]&m3[k]&d[e][f0][g][k]&n[k][0]";

/// Keys of a few shapes, orders and nestings, laid between each other with values for maps, which
/// are maps before in three cases out of four; in one case out of eight damaged.
pub fn mixture(random: &mut Random, most: usize) -> Vec<u8> {
    let mut rows: Vec<Vec<Vec<u8>>> = (0..1 + random.below(3))
        .map(|_| {
            let count = 1 + random.below(most);
            let (_, order) = ORDERS[random.below(ORDERS.len())];
            let (_, shape) = SHAPES[random.below(SHAPES.len())];
            NESTINGS[random.below(NESTINGS.len())].pairs(count, order, shape)
        })
        .collect();
    rows.push(values(random, most / 4));
    let mut rest: Vec<_> = rows.into_iter().map(Vec::into_iter).collect();
    let mut mixed = Vec::new();
    if random.below(4) > 0 {
        mixed.push(MAPS.to_vec());
    }
    while !rest.is_empty() {
        let row = random.below(rest.len());
        let run = 1 + random.below(6) * random.below(6);
        mixed.extend(rest[row].by_ref().take(run));
        rest.retain(|row| row.len() > 0);
    }
    let mut input = mixed.join(&b'&');
    if random.below(8) == 0 {
        random.damage(&mut input);
    }
    input
}

/// Values for maps themselves, which go under their empty keys, and for a few sequences.
fn values(random: &mut Random, most: usize) -> Vec<Vec<u8>> {
    const PAIRS: [&[u8]; 12] = [
        b"m=1",
        b"m1=%00",
        b"m3",
        b"d[e]=x",
        b"n=",
        b"=y",
        b"d[e][f0][g]=z",
        b"",
        b"t[]=1",
        b"u[]",
        b"t[]",
        b"w=1",
    ];
    let kinds = 1 + random.below(PAIRS.len());
    let first = random.below(PAIRS.len());
    (0..random.below(most + 1))
        .map(|_| PAIRS[(first + random.below(kinds)) % PAIRS.len()].to_vec())
        .collect()
}

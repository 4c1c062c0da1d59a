//! The listing program, run as it was built and proved: what it prints, held against a listing made
//! here of what the model reads.

mod common;

use common::programs::{self, LIST_BYTES, LIST_RECORDS};
use common::tree;
use model::row::WIDTH;
use model::{read, Config, MAX_DEPTH, MAX_LEN};
use qs::refusal;
use serde_qs_reference::{Key, Tree};
use std::collections::BTreeMap;
use std::fmt::Write as _;
use std::path::{Path, PathBuf};

fn program() -> Option<PathBuf> {
    programs::built("list")
}

/// What the program prints for an input.
fn print(program: &Path, input: &[u8]) -> String {
    String::from_utf8(programs::print(program, input)).expect("listings are ASCII")
}

fn input(depth: u32, form: bool, query: &[u8]) -> Vec<u8> {
    let head = format!("depth={depth}\nform={}\n", u8::from(form));
    [head.as_bytes(), query].concat()
}

fn hex(bytes: &[u8]) -> String {
    bytes.iter().map(|byte| format!("{byte:02x}")).collect()
}

/// The listing of what the model reads.
fn listing(config: Config, query: &[u8]) -> String {
    let outcome = read(config, query, &[0; LIST_RECORDS * WIDTH], &[0; LIST_BYTES]);
    let mut lines = format!(
        "answer={}\nplace={}\nnodes={}\nbytes={}\n",
        outcome.number, outcome.place, outcome.records, outcome.bytes
    );
    if outcome.number == refusal::ACCEPTED {
        values(&tree(&outcome.words, &outcome.text), 0, "-", &mut lines);
    }
    lines
}

fn values(tree: &Tree, level: usize, key: &str, lines: &mut String) {
    let (kind, text) = match tree {
        Tree::Map(_) => ("map", "-".into()),
        Tree::Sequence(_) => ("sequence", "-".into()),
        Tree::String(bytes) => ("string", hex(bytes)),
        Tree::Null => ("null", "-".into()),
        Tree::NoValue => ("novalue", "-".into()),
        Tree::Uninitialized => ("uninit", "-".into()),
    };
    writeln!(lines, "level={level}\nkey={key}\nkind={kind}\ntext={text}").expect("a String grows");
    match tree {
        Tree::Map(entries) => {
            for (key, value) in entries {
                let key = match key {
                    Key::Int(int) => format!("i{int}"),
                    Key::String(bytes) => format!("s{}", hex(bytes)),
                };
                values(value, level + 1, &key, lines);
            }
        }
        Tree::Sequence(elements) => {
            for value in elements {
                values(value, level + 1, "-", lines);
            }
        }
        Tree::String(_) | Tree::Null | Tree::NoValue | Tree::Uninitialized => {}
    }
}

/// Holds the program against the model, and gives what both print.
fn compare(program: &Path, depth: u32, form: bool, query: &[u8]) -> String {
    let printed = print(program, &input(depth, form, query));
    let zeros = false;
    let expected = listing(Config { depth, form, zeros }, query);
    assert!(
        printed == expected,
        "depth {depth}, form {form}, {} bytes '{}': {} bytes printed, {} expected",
        query.len(),
        query[..query.len().min(80)].escape_ascii(),
        printed.len(),
        expected.len()
    );
    printed
}

/// The first line of a listing.
fn answer(listing: &str) -> &str {
    listing.lines().next().expect("a listing has lines")
}

/// Lines with their newlines.
fn lines(items: &str) -> String {
    items.split(' ').map(|item| format!("{item}\n")).collect()
}

#[test]
fn example_lines() {
    let Some(program) = program() else { return };
    let list = |input: &[u8]| print(&program, input);
    assert_eq!(
        list(b"depth=5\nform=0\na=1"),
        lines(
            "answer=0 place=0 nodes=2 bytes=2 level=0 key=- kind=map text=- \
             level=1 key=s61 kind=string text=31"
        )
    );
    // a trailing newline belongs to the query string
    assert_eq!(
        list(b"depth=5\nform=0\na=1\n"),
        lines(
            "answer=0 place=0 nodes=2 bytes=3 level=0 key=- kind=map text=- \
             level=1 key=s61 kind=string text=310a"
        )
    );
    assert_eq!(
        list(b"depth=5\nform=0\na["),
        lines("answer=4 place=3 nodes=0 bytes=0")
    );
}

#[test]
fn bad_heads() {
    let Some(program) = program() else { return };
    let cases: [&[u8]; 25] = [
        b"",
        b"\n",
        b"a=1",
        b"depth=",
        b"depth=5",
        b"depth=5\n",
        b"depth=\nform=0\na=1",
        b"depth=00\nform=0\na=1",
        b"depth=05\nform=0\na=1",
        b"depth=1000\nform=0\na=1",
        b"depth=-1\nform=0\na=1",
        b"depth=5 \nform=0\na=1",
        b"depth=5\r\nform=0\r\na=1",
        b"depth=5\nform=0\r\na=1",
        b"depth=5\nform=0",
        b"depth=5\nform=0a=1",
        b"depth=5\nform=\na=1",
        b"depth=5\nform=2\na=1",
        b"depth=5\nform=00\na=1",
        b"depth=5\n\nform=0\na=1",
        b"Depth=5\nform=0\na=1",
        b" depth=5\nform=0\na=1",
        b"form=0\ndepth=5\na=1",
        &[b'a'; 100_000],
        &[&b"depth="[..], &[b'1'; 100_000]].concat(),
    ];
    for case in cases {
        let shown = case[..case.len().min(40)].escape_ascii();
        assert_eq!(print(&program, case), "answer=head\n", "'{shown}'");
    }
    println!("{} bad heads", cases.len());
}

#[test]
fn depths() {
    let Some(program) = program() else { return };
    let nested = [&b"a"[..], &b"[b]".repeat(70), b"=1"].concat();
    let (most, above) = (MAX_DEPTH, MAX_DEPTH + 1);
    for depth in [0, 1, 9, 10, most - 1, most, above, 99, 100, 999] {
        for form in [false, true] {
            for query in [&b""[..], b"a[b]=1", b"a%5Bb%5D=1", &nested] {
                let printed = compare(&program, depth, form, query);
                let expected = if depth > most { "answer=1" } else { "answer=0" };
                assert_eq!(answer(&printed), expected, "depth {depth}");
            }
        }
    }
}

/// The queries of the stored cases (crates/replay/FORMAT.md), those of READING, 'Examples', among
/// them: here all have the room that the program lends.
#[test]
fn stored_queries() {
    let Some(program) = program() else { return };
    let path = Path::new(env!("CARGO_MANIFEST_DIR")).join("../crates/replay/stdin");
    let file = std::fs::read(&path).unwrap_or_else(|why| panic!("{}: {why}", path.display()));
    let number = |at: usize| u32::from_le_bytes(file[at..][..4].try_into().expect("four bytes"));
    let mut at = 4;
    let mut answers = BTreeMap::new();
    while at < file.len() {
        let [depth, form, _, _, length, _, _, records, bytes]: [u32; 9] =
            std::array::from_fn(|place| number(at + 4 * place));
        let query = &file[at + 36..][..length as usize];
        at += 36 + (length + 4 * WIDTH as u32 * records + bytes) as usize;
        // the program's depth has at most three digits
        if depth > 999 {
            continue;
        }
        let printed = compare(&program, depth, form == 1, query);
        *answers.entry(answer(&printed).to_owned()).or_insert(0) += 1;
    }
    println!("the stored queries: {answers:?}");
    // with that room all of 0 to 13 come but 3
    assert_eq!(answers.len(), 13);
}

#[test]
fn both_sides_of_the_longest_query() {
    let Some(program) = program() else { return };
    for piece in [&b"&"[..], b"a", b"a&", b"%41+", b"[]&"] {
        // 65,553 bytes are all that the program reads
        let near = [MAX_LEN - 1, MAX_LEN, MAX_LEN + 1, MAX_LEN + 2];
        for length in near.into_iter().chain([65_553, 65_554, 1_000_000]) {
            let query: Vec<u8> = piece.iter().copied().cycle().take(length).collect();
            for depth in [5, MAX_DEPTH, MAX_DEPTH + 1, 100] {
                let printed = compare(&program, depth, false, &query);
                let too_long = depth <= MAX_DEPTH && length > MAX_LEN;
                assert_eq!(answer(&printed) == "answer=1", depth > MAX_DEPTH);
                assert_eq!(answer(&printed) == "answer=2", too_long, "{length}");
            }
        }
    }
}

/// So many pairs, the last one longer, so that the query has as many bytes as it may.
fn longest(pairs: usize, pair: impl Fn(usize) -> String) -> Vec<u8> {
    let pairs: Vec<String> = (0..pairs).map(pair).collect();
    let mut query = pairs.join("&").into_bytes();
    assert!(query.len() < MAX_LEN);
    query.resize(MAX_LEN, b'z');
    query
}

/// A pair by its number.
type Pair = fn(usize) -> String;

#[test]
fn the_largest_trees() {
    let Some(program) = program() else { return };
    // with the records that stand above the pairs' own
    let kinds: [(usize, Pair); 5] = [
        (1, |i| format!("{i:k>31}")),
        (1, |i| format!("{}=v", 4_294_960_000 + i as u64)),
        (1, |i| format!("[{i:k>28}]=")),
        (2, |i| format!("a[]={i:v>27}")),
        (2, |i| format!("a[%FF{i}]=%00%01+%fE%%41")),
    ];
    let mut most = 0;
    for (above, pair) in kinds {
        let printed = compare(&program, 5, false, &longest(LIST_RECORDS - above, pair));
        let nodes = format!("\nnodes={LIST_RECORDS}\n");
        assert!(printed.contains(&nodes), "{}", pair(0));
        most = most.max(printed.len());
        let refused = compare(&program, 5, false, &longest(LIST_RECORDS - above + 1, pair));
        assert_eq!(answer(&refused), "answer=14", "{}", pair(0));
    }
    println!("the longest listing has {most} bytes");
    assert!(most > 190_000);
}

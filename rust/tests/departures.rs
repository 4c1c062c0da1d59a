//! Whole inputs beside the URL Standard's parser: each row of docs/DIFFERENCES.md's first table,
//! and that no difference is left outside of its rows.

mod common;

use common::inputs::query;
use common::rows::{expected, leaves, Expected, Row};
use common::whatwg::{pairs, splits_as_the_standard};
use common::{crate_config, every_string, owned, ticket, times, Random, NUMBERS};
use qs::{refusal, Buffers, Config, Refused};
use serde_qs_reference::{Key, Tree};

/// The tree that an input gives here, or the refusal's number and place.
fn read(config: Config, input: &[u8]) -> Result<Tree, (u32, u32)> {
    let mut buffers = Buffers::for_len(input.len());
    match ticket(config, input).parse(&mut buffers) {
        Ok(reading) => Ok(owned(reading.tree())),
        Err(Refused { refusal, place }) => Err((refusal.number(), place)),
    }
}

fn map<const N: usize>(entries: [(&str, Tree); N]) -> Tree {
    let entry = |(key, value): (&str, Tree)| (Key::String(key.as_bytes().to_vec()), value);
    Tree::Map(entries.map(entry).into())
}

/// A map with one entry, which has no value.
fn name(key: &str) -> Tree {
    map([(key, Tree::NoValue)])
}

/// A map with one entry, under the key `a`.
fn under_a(value: Tree) -> Tree {
    map([("a", value)])
}

type Pairs = &'static [(&'static str, &'static str)];

/// An input of a row: the standard's names and values, and what it gives here.
struct Example {
    row: Row,
    config: Config,
    input: &'static str,
    standard: Pairs,
    here: Result<Tree, (u32, u32)>,
}

impl Example {
    fn depth(mut self, depth: u32) -> Self {
        self.config.depth = depth;
        self
    }

    fn form(mut self) -> Self {
        self.config.form = true;
        self
    }
}

/// An input that is accepted, at depth 5 with the flag off unless said.
fn accepted(row: Row, input: &'static str, standard: Pairs, here: Tree) -> Example {
    Example {
        row,
        config: Config::default(),
        input,
        standard,
        here: Ok(here),
    }
}

/// One that is refused by a number at a place.
fn refused(row: Row, input: &'static str, standard: Pairs, number: u32, place: u32) -> Example {
    Example {
        here: Err((number, place)),
        ..accepted(row, input, standard, Tree::NoValue)
    }
}

fn on_decoding() -> Vec<Example> {
    use Row::{NotUtf8, SwallowedEscape, SwallowedPlus};
    let bytes = Tree::Map(vec![(Key::String(vec![0xFF]), Tree::NoValue)]);
    vec![
        accepted(SwallowedEscape, "%%41", &[("%A", "")], name("%%41")),
        accepted(SwallowedPlus, "%+", &[("% ", "")], name("%+")),
        accepted(NotUtf8, "%FF", &[("\u{FFFD}", "")], bytes),
    ]
}

fn on_brackets() -> Vec<Example> {
    use Row::{AmpersandInKey, EmptyBrackets, EqualsInKey, FormBrackets, Nested};
    let sequence = || Tree::Sequence(vec![Tree::NoValue]);
    let split: Pairs = &[("[", ""), ("]", "")];
    vec![
        accepted(Nested, "[a]", &[("[a]", "")], name("a")),
        accepted(Nested, "[a][b]", &[("[a][b]", "")], under_a(name("b"))),
        accepted(EmptyBrackets, "[]", &[("[]", "")], sequence()),
        accepted(AmpersandInKey, "[&]", split, name("&")),
        accepted(EqualsInKey, "[=]", &[("[", "]")], name("=")),
        refused(FormBrackets, "%5B", &[("[", "")], 4, 4).form(),
        accepted(FormBrackets, "%5B%5D", &[("[]", "")], sequence()).form(),
    ]
}

fn at_the_depth() -> Vec<Example> {
    use Row::{Depth, MarkAtDepth};
    let sequence = Tree::Sequence(vec![Tree::NoValue]);
    let open: Pairs = &[("[a][", "")];
    let split: Pairs = &[("[a][", ""), ("b", "")];
    vec![
        accepted(Depth, "[a][b", &[("[a][b", "")], under_a(name("[b"))).depth(1),
        accepted(Depth, "[a][]", &[("[a][]", "")], under_a(sequence)).depth(1),
        accepted(MarkAtDepth, "[a][&", open, under_a(name("[&"))).depth(1),
        accepted(MarkAtDepth, "[a][=", open, under_a(name("[="))).depth(1),
        accepted(MarkAtDepth, "[a][&b", split, under_a(name("[&b"))).depth(1),
    ]
}

fn on_refusals() -> Vec<Example> {
    use Row::{ByteAfter, NotBoth, NotClosed};
    vec![
        refused(NotClosed, "[", &[("[", "")], 4, 2),
        refused(ByteAfter, "[]a", &[("[]a", "")], 13, 3),
        refused(NotBoth, "=&a", &[("", ""), ("a", "")], 10, 4),
    ]
}

fn on_values() -> Vec<Example> {
    use Tree::{NoValue, Null, Sequence, String, Uninitialized};
    let twice = Sequence(vec![NoValue, NoValue]);
    let number = Tree::Map(vec![(Key::Int(0), NoValue)]);
    let below = map([("", NoValue), ("b", NoValue)]);
    let nested: Pairs = &[("a[b]", ""), ("a", "")];
    let sorted = map([("a", NoValue), ("b", NoValue)]);
    vec![
        accepted(Row::NoValue, "a", &[("a", "")], name("a")),
        accepted(Row::Nameless, "=", &[("", "")], Null),
        accepted(Row::Nameless, "=1", &[("", "1")], String(b"1".to_vec())),
        accepted(Row::NoPairs, "&", &[], Uninitialized),
        accepted(Row::Digits, "0", &[("0", "")], number),
        accepted(Row::Twice, "a&a", &[("a", ""), ("a", "")], under_a(twice)),
        accepted(Row::EmptyKey, "a[b]&a", nested, under_a(below)),
        accepted(Row::KeyOrder, "b&a", &[("b", ""), ("a", "")], sorted),
    ]
}

/// The table's rows, each with its smallest input before its others.
fn table() -> Vec<Example> {
    let brackets = on_brackets().into_iter().chain(at_the_depth());
    let others = [on_decoding(), on_refusals(), on_values()];
    brackets.chain(others.into_iter().flatten()).collect()
}

/// Each row's smallest input, in the table's order.
fn smallest() -> Vec<Example> {
    let mut examples = table();
    examples.sort_by_key(|example| example.row as usize);
    examples.dedup_by_key(|example| example.row as usize);
    assert_eq!(examples.len(), Row::COUNT, "each row has an example");
    examples
}

#[test]
fn rows_of_the_table() {
    let owned = |&(name, value): &(&str, &str)| (name.to_owned(), value.to_owned());
    for example in table() {
        let Example {
            input, config, row, ..
        } = example;
        let standard: Vec<_> = example.standard.iter().map(owned).collect();
        assert_eq!(
            pairs(input.as_bytes()),
            standard,
            "{input}, by the standard"
        );
        let here = read(config, input.as_bytes());
        assert_eq!(here, example.here, "{input}, here");
        let mut rows = expected(config, input.as_bytes()).rows();
        assert!(
            rows.any(|place| place == row as usize),
            "{input} shows {row:?}"
        );
    }
    println!("{} inputs of {} rows", table().len(), Row::COUNT);
}

/// Inputs that the table names beside its rows' own.
#[test]
fn beside_the_rows() {
    use Tree::{NoValue, Null, Sequence};
    let twice = || under_a(Sequence(vec![NoValue, NoValue]));
    let inputs = [
        ("", NoValue),
        ("a=", under_a(Null)),
        ("a&=", map([("", Null), ("a", NoValue)])),
        ("00", Tree::Map(vec![(Key::Int(0), NoValue)])),
        ("%30", name("0")),
        ("[a]&a", twice()),
        ("a[]&a", twice()),
    ];
    for (input, here) in inputs {
        let read = read(Config::default(), input.as_bytes());
        assert_eq!(read, Ok(here), "{input}");
    }
    let whole = crate_config(0, false);
    assert_eq!(read(whole, b"[a][]"), Ok(name("[a][]")));
}

/// The row on the limits, which no short input meets.
#[test]
fn limits() {
    let deep = Config {
        depth: qs::MAX_DEPTH + 1,
        ..Config::default()
    };
    assert_eq!(read(deep, b""), Err((1, 0)));
}

/// Inputs at each setting: what is read here is what the rows make of the standard's pairs. No
/// input is skipped.
struct Search {
    inputs: usize,
    accepted: usize,
    /// By number.
    refused: [usize; NUMBERS],
    /// Readings in which no row is at work.
    without: usize,
    /// For each row in how many readings it is at work, and how long the shortest input of those
    /// is.
    rows: [(usize, usize); Row::COUNT],
}

impl Search {
    fn new() -> Self {
        Search {
            inputs: 0,
            accepted: 0,
            refused: [0; NUMBERS],
            without: 0,
            rows: [(0, usize::MAX); Row::COUNT],
        }
    }

    fn compare(&mut self, input: &[u8]) {
        let shown = input.escape_ascii();
        assert!(splits_as_the_standard(input), "{shown}, its splitting");
        self.inputs += 1;
        for setting in 0..6 {
            let (depth, form) = (setting / 2, setting % 2 == 1);
            let config = crate_config(depth, form);
            let expected = expected(config, input);
            let here = read(config, input).map(|tree| leaves(&tree));
            let here = here.map_err(|(number, _)| number);
            assert_eq!(here, expected.leaves, "{shown} at {config:?}");
            self.count(input.len(), &expected);
        }
    }

    fn count(&mut self, length: usize, expected: &Expected) {
        match expected.leaves {
            Ok(_) => self.accepted += 1,
            Err(number) => self.refused[number as usize] += 1,
        }
        self.without += usize::from(expected.rows().next().is_none());
        for place in expected.rows() {
            let (readings, shortest) = &mut self.rows[place];
            *readings += 1;
            *shortest = length.min(*shortest);
        }
    }

    /// Says what was met; each refusal and each row has to be, and no reading may be left out.
    fn report(&self, what: &str) {
        let (inputs, accepted, without) = (self.inputs, self.accepted, self.without);
        let numbers: Vec<usize> = refusal::OF_THE_CRATE
            .map(|number| self.refused[number as usize])
            .collect();
        let refused: usize = numbers.iter().sum();
        assert_eq!(accepted + refused, 6 * inputs, "none is skipped");
        assert!(numbers.iter().all(|&readings| readings > 0), "{numbers:?}");
        println!("{what}: {inputs} inputs at 6 settings, none skipped");
        println!("{accepted} readings accepted, {refused} refused (by 4 to 13: {numbers:?}); {without} under no row");
        for Example { row, .. } in smallest() {
            let (readings, shortest) = self.rows[row as usize];
            assert!(readings > 0, "{row:?}");
            println!("{row:?}: {readings} readings, the shortest input of {shortest} bytes");
        }
    }
}

/// Pieces of an input: `B` and `D` stand for escaped brackets, which the form flag tells from other
/// escapes.
fn spelled(pieces: &[u8]) -> Vec<u8> {
    let mut input = Vec::new();
    for piece in pieces {
        input.extend_from_slice(match piece {
            b'B' => b"%5B",
            b'D' => b"%5D",
            byte => std::slice::from_ref(byte),
        });
    }
    input
}

/// None of these inputs shows a row and is shorter than the table's.
#[test]
fn short_inputs() {
    let mut search = Search::new();
    every_string(b"a1[]&=%+BD", 6, |pieces| search.compare(&spelled(pieces)));
    every_string(b"a[]&=", 8, |input| search.compare(input));
    search.report("every input of up to 6 pieces out of 10, and of up to 8 bytes over 5");
    for Example { row, input, .. } in smallest() {
        let (_, shortest) = search.rows[row as usize];
        assert_eq!(input.len(), shortest, "the smallest input of {row:?}");
    }
}

#[test]
fn random_inputs() {
    let mut search = Search::new();
    let mut random = Random::new(8);
    for _ in 0..times(100_000) {
        let length = random.below(41);
        let input = match random.below(4) {
            0 => random.bytes(length),
            1 => random.string(b"abcdefgh[]&&==%+15BD\xC3\xA9", length),
            _ => {
                let pairs = 1 + random.below(5);
                query(&mut random, pairs)
            }
        };
        search.compare(&input);
    }
    search.report("random inputs");
}

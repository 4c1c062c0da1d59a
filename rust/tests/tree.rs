//! The view of a tree. Of readings it is the crate's tree, and drawn it is what is expected of that
//! tree; of any words whatever, which may lead in circles or out of the words, every iteration and
//! every drawing ends, and within its bounds. `COMPARE=whole` in the environment makes the random
//! part twenty times as large.

mod common;

use common::inputs::{deep_query, fields_query, long_query, query};
use common::{
    any_config, crate_config, owned, random_crate_config, reference_is_there, ticket, times, Random,
};
use qs::{row, Buffers, Key, Kind, Quoted, Tree, MAX_DEPTH, MAX_LEVEL, RECORD_WORDS};
use serde_qs_reference::{Key as OwnedKey, Tree as OwnedTree};

// Of readings.

/// What a tree's lines have to be, by the crate's tree.
fn lines(tree: &OwnedTree, level: usize) -> String {
    let below = |front: String, child: &OwnedTree| {
        let indent = "  ".repeat(level + 1);
        format!("\n{indent}{front}{}", lines(child, level + 1))
    };
    let entry = |(key, child): &(OwnedKey, OwnedTree)| below(format!("{}: ", key_of(key)), child);
    let element = |child: &OwnedTree| below("- ".to_owned(), child);
    match tree {
        OwnedTree::Map(entries) => {
            "map".to_owned() + &entries.iter().map(entry).collect::<String>()
        }
        OwnedTree::Sequence(elements) => {
            "sequence".to_owned() + &elements.iter().map(element).collect::<String>()
        }
        OwnedTree::String(bytes) => Quoted(bytes).to_string(),
        OwnedTree::Null => "null".to_owned(),
        OwnedTree::NoValue => "no value".to_owned(),
        OwnedTree::Uninitialized => "uninitialized".to_owned(),
    }
}

/// What `{:?}` has to give, by the crate's tree.
fn debugged(tree: &OwnedTree) -> String {
    let entry =
        |(key, child): &(OwnedKey, OwnedTree)| format!("{}: {}", key_of(key), debugged(child));
    match tree {
        OwnedTree::Map(entries) => {
            format!(
                "{{{}}}",
                entries.iter().map(entry).collect::<Vec<_>>().join(", ")
            )
        }
        OwnedTree::Sequence(elements) => {
            format!(
                "[{}]",
                elements.iter().map(debugged).collect::<Vec<_>>().join(", ")
            )
        }
        OwnedTree::String(bytes) => Quoted(bytes).to_string(),
        OwnedTree::Null => "Null".to_owned(),
        OwnedTree::NoValue => "NoValue".to_owned(),
        OwnedTree::Uninitialized => "Uninitialized".to_owned(),
    }
}

fn key_of(key: &OwnedKey) -> String {
    match key {
        OwnedKey::Int(number) => number.to_string(),
        OwnedKey::String(bytes) => Quoted(bytes).to_string(),
    }
}

/// How many readings were looked at, and how many values they have.
#[derive(Default)]
struct Counts {
    readings: usize,
    values: usize,
}

impl Counts {
    /// An accepted input: the crate's tree, both drawings whole, and each key found again.
    fn compare(&mut self, config: qs::Config, input: &[u8]) {
        let what = || format!("{config:?} '{}'", input.escape_ascii());
        let mut buffers = Buffers::for_len(input.len());
        let Ok(reading) = ticket(config, input).parse(&mut buffers) else {
            return;
        };
        let tree = reading.tree();
        let held = owned(tree);
        if !config.zeros {
            let expected = serde_qs_reference::parse(input, config.depth as usize, config.form);
            assert_eq!(Ok(&held), expected.as_ref(), "{}", what());
        }
        let drawn = tree.to_string();
        assert_eq!(drawn, lines(&held, 0), "{}", what());
        assert_eq!(format!("{reading:?}"), debugged(&held), "{}", what());
        let values = reading.records().len() / RECORD_WORDS;
        assert_eq!(drawn.lines().count(), values, "{}", what());
        for (key, value) in tree.entries() {
            let found = tree.get(key).map(owned);
            assert_eq!(found, Some(owned(value)), "{}", what());
        }
        self.readings += 1;
        self.values += values;
    }

    fn report(&self, what: &str) {
        let Counts { readings, values } = self;
        println!("{what}: {readings} accepted readings, {values} values");
        assert!(*readings > 100 && values > readings);
    }
}

#[test]
fn random_inputs() {
    if !reference_is_there() {
        return;
    }
    let mut random = Random::new(81);
    let mut counts = Counts::default();
    for turn in 0..times(20_000) {
        let pairs = 1 + random.below(8);
        let input = match turn % 2 {
            0 => query(&mut random, pairs),
            _ => fields_query(&mut random, pairs),
        };
        counts.compare(random_crate_config(&mut random), &input);
        counts.compare(any_config(&mut random), &input);
    }
    counts.report("random inputs");
}

#[test]
fn deep_and_long_inputs() {
    if !reference_is_there() {
        return;
    }
    let mut random = Random::new(82);
    let mut counts = Counts::default();
    for _ in 0..times(100) {
        for depth in [0, 1, 5, MAX_DEPTH] {
            let input = deep_query(&mut random, depth, 5);
            counts.compare(crate_config(depth, false), &input);
        }
        let length = random.below(4_000);
        let input = long_query(&mut random, length);
        counts.compare(crate_config(5, false), &input);
    }
    counts.report("deep and long inputs");
}

/// The deepest level is reached, and drawn.
#[test]
fn the_deepest_level() {
    let key = "a".to_owned() + &"[b]".repeat(MAX_DEPTH as usize + 1);
    let input = format!("{key}&{key}=x");
    let mut buffers = Buffers::for_len(input.len());
    let ticket = ticket(crate_config(MAX_DEPTH, false), input.as_bytes());
    let drawn = ticket
        .parse(&mut buffers)
        .expect("it is accepted")
        .tree()
        .to_string();
    let last = drawn.lines().last().expect("there are lines");
    assert_eq!(last, "  ".repeat(MAX_LEVEL as usize) + "- \"x\"");
}

/// A number and a string of its digits are two keys; a key is looked for in a map alone.
#[test]
fn keys_of_both_kinds() {
    let input = b"1=a&%31=b&s[]=c&=d&x[%FF]=e";
    let mut buffers = Buffers::for_len(input.len());
    let reading = ticket(crate_config(5, false), input).parse(&mut buffers);
    let tree = reading.expect("it is accepted").tree();
    let text = |value: Option<Tree>| value.and_then(|value| value.text().map(<[u8]>::to_vec));
    assert_eq!(text(tree.get(1)), Some(b"a".to_vec()));
    assert_eq!(text(tree.get("1")), Some(b"b".to_vec()));
    assert_eq!(text(tree.get("")), Some(b"d".to_vec()));
    let x = tree.get(b"x").expect("it is there");
    assert_eq!(text(x.get(b"\xFF")), Some(b"e".to_vec()));
    assert_eq!(x.get(&b"\xFF"[..]).and_then(Tree::text_str), Some("e"));
    let s = tree.get("s").expect("it is there");
    assert!(s.get(0).is_none() && s.get("").is_none() && s.entries().next().is_none());
    assert!(tree.get(0).is_none() && tree.elements().next().is_none());
    let keys: Vec<Key> = tree.entries().map(|(key, _)| key).collect();
    assert!(keys.is_sorted());
    assert_eq!(
        format!("{:?}", keys),
        r#"[Int(1), String(""), String("1"), String("s"), String("x")]"#
    );
}

/// Nothing that a terminal would obey is drawn as it is, whatever bytes a ticket has.
#[test]
fn drawings_have_no_control_characters() {
    let mut random = Random::new(83);
    let mut drawn = 0;
    let mut check = |bytes: &[u8]| {
        let escaped: String = bytes.iter().map(|byte| format!("%{byte:02X}")).collect();
        let input = format!("{escaped}={escaped}&k[{escaped}x]=1");
        let mut buffers = Buffers::for_len(input.len());
        let Ok(reading) = ticket(crate_config(5, false), input.as_bytes()).parse(&mut buffers)
        else {
            return;
        };
        let obeyed = |c: char| c.is_control() && c != '\n';
        assert!(!reading.tree().to_string().contains(obeyed), "{input}");
        assert!(
            !format!("{reading:?}").contains(char::is_control),
            "{input}"
        );
        drawn += 1;
    };
    (0..=255).for_each(|byte| check(&[byte]));
    ('\0'..='\u{9f}').for_each(|c| check(c.to_string().as_bytes()));
    check("\u{202e}\u{2028}".as_bytes());
    for _ in 0..times(2_000) {
        let length = 1 + random.below(6);
        check(&random.bytes(length));
    }
    println!("{drawn} drawings");
    assert!(drawn > 400);
}

// Of any words.

/// A record by its words, in the order of `row`.
type Record = [u32; RECORD_WORDS];

/// The record of a value under a number, or without a key, with its first child and its next
/// sibling.
fn record(kind: u32, key: Option<u32>, child: u32, next: u32) -> Record {
    let mut record = [0; RECORD_WORDS];
    record[row::KIND] = kind;
    record[row::KEY_KIND] = if key.is_some() {
        row::INT_KEY
    } else {
        row::NO_KEY
    };
    record[row::KEY] = key.unwrap_or(0);
    record[row::CHILD] = child;
    record[row::NEXT] = next;
    record
}

fn string(text: [u32; 2], next: u32) -> Record {
    let mut record = record(row::STRING, Some(0), 0, next);
    [record[row::TEXT], record[row::TEXT_LEN]] = text;
    record
}

/// Draws and walks a tree of any words: it ends, nothing panics, and no bound is passed. Gives the
/// lines.
fn bounded(words: &[u32], text: &[u8]) -> String {
    let tree = Tree::of(words, text).expect("there is a record");
    let count = words.len() / RECORD_WORDS;
    let (mut entries, mut elements) = (tree.entries(), tree.elements());
    let most = entries.size_hint().1.expect("it is bounded");
    assert!(most <= count);
    assert!(entries.by_ref().count() <= most && elements.by_ref().count() <= most);
    assert!(entries.next().is_none() && elements.next().is_none());
    assert!(tree.get("nowhere").is_none());
    let drawn = tree.to_string();
    assert!(drawn.lines().count() <= count);
    let indent = |line: &str| line.len() - line.trim_start_matches(' ').len();
    assert!(drawn
        .lines()
        .all(|line| indent(line) <= 2 * MAX_LEVEL as usize));
    let debugged = format!("{tree:?}");
    // A byte is drawn as four at most, and a value has a key of ten digits, marks, and a kind.
    let most = |value| value * count + 4 * text.len();
    assert!(
        drawn.len() <= most(2 * MAX_LEVEL as usize + 40),
        "{}",
        drawn.len()
    );
    assert!(debugged.len() <= most(40), "{}", debugged.len());
    drawn
}

/// The entries of record 0 by hand: its children until there is none, one is met whose key isn't
/// there, or there were as many as records.
fn entries_by_hand<'a>(words: &[u32], text: &'a [u8]) -> Vec<(Key<'a>, u32)> {
    let records: Vec<&[u32]> = words.chunks_exact(RECORD_WORDS).collect();
    let mut found = Vec::new();
    let mut next = match records[0][row::KIND] {
        row::MAP => records[0][row::CHILD],
        _ => 0,
    };
    while next != 0 && (next as usize) < records.len() && found.len() < records.len() {
        let child = records[next as usize];
        let (key, length) = (child[row::KEY] as usize, child[row::KEY_LEN] as usize);
        found.push(match child[row::KEY_KIND] {
            row::INT_KEY => (Key::Int(child[row::KEY]), child[row::KIND]),
            row::STRING_KEY if key + length <= text.len() => {
                (Key::String(&text[key..key + length]), child[row::KIND])
            }
            _ => break,
        });
        next = child[row::NEXT];
    }
    found
}

/// A kind's number; those that no reading leaves are uninitialized.
fn kind_of(number: u32) -> Kind {
    use Kind::{Map, NoValue, Null, Sequence, String, Uninitialized};
    let kinds = [Uninitialized, Map, Sequence, String, Null, NoValue];
    *kinds.get(number as usize).unwrap_or(&Uninitialized)
}

#[test]
fn random_words() {
    let mut random = Random::new(84);
    let (mut entries, mut lines) = (0, 0);
    for turn in 0..times(20_000) {
        let count = 1 + random.below(12);
        let spare = random.below(RECORD_WORDS);
        let below = 2 + random.below(14);
        let mut words: Vec<u32> = (0..count * RECORD_WORDS + spare)
            .map(|_| random.below(below) as u32)
            .collect();
        if turn % 8 == 0 {
            let place = random.below(words.len());
            words[place] = u32::MAX - random.below(2) as u32;
        }
        // Words all at random seldom have entries: every other time the root is a map, and each
        // record has a key.
        if turn % 2 == 0 {
            words[row::KIND] = row::MAP;
            words[row::CHILD] = random.below(count) as u32;
            for record in words.chunks_exact_mut(RECORD_WORDS) {
                record[row::KEY_KIND] = row::INT_KEY + random.below(2) as u32;
            }
        }
        let length = random.below(16);
        let text = random.bytes(length);
        lines += bounded(&words, &text).lines().count();
        let tree = Tree::of(&words, &text).expect("there is a record");
        assert_eq!(tree.kind(), kind_of(words[row::KIND]));
        let expected = entries_by_hand(&words, &text);
        let expected = expected.into_iter().map(|(key, kind)| (key, kind_of(kind)));
        let got: Vec<_> = tree
            .entries()
            .map(|(key, value)| (key, value.kind()))
            .collect();
        assert!(expected.eq(got.iter().copied()), "{words:?} {text:?}");
        entries += got.len();
    }
    println!("{entries} entries, {lines} lines");
    assert!(entries > 10_000 && lines > 20_000);
}

/// As many records as a reading can leave, of words at random: nothing takes long.
#[test]
fn many_random_words() {
    let mut random = Random::new(85);
    let count = qs::MAX_LEN + 1;
    let text = random.bytes(qs::MAX_LEN);
    let mut lines = 0;
    for _ in 0..10 {
        let word = |place: usize, random: &mut Random| match place % RECORD_WORDS {
            row::KIND => row::MAP + random.below(3) as u32,
            row::KEY_KIND => 1 + random.below(2) as u32,
            row::KEY_LEN | row::TEXT_LEN => random.below(4) as u32,
            _ => random.below(count) as u32,
        };
        let mut words: Vec<u32> = (0..count * RECORD_WORDS)
            .map(|place| word(place, &mut random))
            .collect();
        words[row::KIND] = row::SEQUENCE;
        lines = lines.max(bounded(&words, &text).lines().count());
    }
    println!("at most {lines} lines");
    assert!(lines > 1_000);
}

/// Records that lead to themselves, by either link, and a root that is its own child's child.
#[test]
fn circles() {
    let own_child = [
        record(row::MAP, None, 1, 0),
        record(row::MAP, Some(7), 1, 0),
    ];
    assert_eq!(bounded(own_child.as_flattened(), b""), "map\n  7: map");
    let own_sibling = [
        record(row::SEQUENCE, None, 1, 0),
        record(row::NULL, None, 0, 1),
    ];
    assert_eq!(
        bounded(own_sibling.as_flattened(), b""),
        "sequence\n  - null"
    );
    let words = own_sibling.as_flattened();
    let tree = Tree::of(words, b"").expect("there is a record");
    assert_eq!(tree.elements().count(), 2);
    let both = [
        record(row::SEQUENCE, None, 1, 0),
        record(row::SEQUENCE, None, 2, 2),
        record(row::SEQUENCE, None, 1, 1),
    ];
    assert_eq!(
        bounded(both.as_flattened(), b""),
        "sequence\n  - sequence\n    - sequence"
    );
    // 0 is no link, so that nothing leads to the root.
    let to_the_root = [
        record(row::MAP, None, 1, 0),
        record(row::MAP, Some(1), 0, 0),
    ];
    assert_eq!(bounded(to_the_root.as_flattened(), b""), "map\n  1: map");
}

/// Two records a level, and both have the two of the next level below them: drawn without a bound
/// that would be 2 to the power of 60 values.
#[test]
fn shared_children() {
    let two = |level: u32| {
        let below = 2 * level + 3;
        let sequence = |next| record(row::SEQUENCE, None, below, next);
        [sequence(2 * level + 2), sequence(0)]
    };
    let records: Vec<Record> = (0..60).flat_map(two).collect();
    let root = record(row::SEQUENCE, None, 1, 0);
    let words = [&[root], &records[..]].concat();
    let drawn = bounded(words.as_flattened(), b"");
    assert_eq!(drawn.lines().count(), words.len());
}

/// More levels than any reading has: drawn as far as a reading's can go.
#[test]
fn too_many_levels() {
    let records: Vec<Record> = (1..200)
        .map(|next| record(row::SEQUENCE, None, next, 0))
        .collect();
    let drawn = bounded(records.as_flattened(), b"");
    assert_eq!(drawn.lines().count(), MAX_LEVEL as usize + 1);
    let words = records.as_flattened();
    let tree = Tree::of(words, b"").expect("there is a record");
    let opened = format!("{tree:?}").matches('[').count();
    assert_eq!(opened, MAX_LEVEL as usize + 1);
}

/// One text for many values is drawn as often as there are bytes for it, so that the drawing can't
/// grow past the text.
#[test]
fn a_text_of_many_values() {
    let strings = (1..100).map(|number| string([0, 40], number + 1));
    let records: Vec<Record> = [record(row::MAP, None, 1, 0)]
        .into_iter()
        .chain(strings)
        .collect();
    let drawn = bounded(records.as_flattened(), &[b'x'; 100]);
    assert_eq!(drawn.lines().count(), 3);
}

/// Links and texts that lead out, and kinds that there aren't.
#[test]
fn words_that_lead_out() {
    let child_out = [record(row::MAP, None, 1, 0)];
    assert_eq!(bounded(child_out.as_flattened(), b""), "map");
    let far_out = [record(row::SEQUENCE, None, u32::MAX, 0)];
    assert_eq!(bounded(far_out.as_flattened(), b""), "sequence");
    let sibling_out = [
        record(row::SEQUENCE, None, 1, 0),
        record(row::NULL, None, 0, 2),
    ];
    assert_eq!(
        bounded(sibling_out.as_flattened(), b""),
        "sequence\n  - null"
    );
    for text in [[0, 4], [3, 1], [4, 0], [1, u32::MAX], [u32::MAX, 1]] {
        let words = [record(row::MAP, None, 1, 0), string(text, 0)];
        assert_eq!(
            bounded(words.as_flattened(), b"abc"),
            "map\n  0: string",
            "{text:?}"
        );
    }
    let just = [record(row::MAP, None, 1, 0), string([3, 0], 0)];
    assert_eq!(bounded(just.as_flattened(), b"abc"), "map\n  0: \"\"");
    let unknown = [record(6, None, 1, 0), record(row::NULL, Some(0), 0, 0)];
    assert_eq!(bounded(unknown.as_flattened(), b""), "uninitialized");
    // The second child has no key, and the third isn't reached.
    let keyless = [
        record(row::MAP, None, 1, 0),
        record(row::NULL, Some(5), 0, 2),
        record(row::NULL, None, 0, 3),
        record(row::NULL, Some(6), 0, 0),
    ];
    assert_eq!(bounded(keyless.as_flattened(), b""), "map\n  5: null");
    assert!(Tree::of(&[], b"").is_none());
    assert!(Tree::of(&[0; RECORD_WORDS - 1], b"").is_none());
}

//! The tickets of READING, 'Examples', as the crate itself reads them: the reference that the other
//! comparisons rest on gives the trees, numbers and places that are stated there. Refusals 1 to 3,
//! 14 and 15 are our own, and the crate has none of them.

mod common;

use common::reference_is_there;
use serde_qs_reference::{decode, parse, Key, Tree};

const DEPTH: usize = 5;

fn name(bytes: &str) -> Key {
    Key::String(bytes.into())
}

fn string(bytes: &str) -> Tree {
    Tree::String(bytes.into())
}

fn map<const N: usize>(entries: [(Key, Tree); N]) -> Tree {
    Tree::Map(entries.into())
}

/// A map with one entry.
fn one(key: &str, value: Tree) -> Tree {
    map([(name(key), value)])
}

#[test]
fn accepted() {
    if !reference_is_there() {
        return;
    }
    let off = false;
    let on = true;
    let cases = [
        ("", DEPTH, off, Tree::NoValue),
        ("&&", DEPTH, off, Tree::Uninitialized),
        ("a[&b]=1", DEPTH, off, one("a", one("&b", string("1")))),
        (
            "007=x&7=y",
            DEPTH,
            off,
            map([(Key::Int(7), Tree::Sequence(vec![string("x"), string("y")]))]),
        ),
        (
            "4294967295",
            DEPTH,
            off,
            map([(Key::Int(u32::MAX), Tree::NoValue)]),
        ),
        ("4294967296", DEPTH, off, one("4294967296", Tree::NoValue)),
        (
            "%31=a&1=b",
            DEPTH,
            off,
            map([(Key::Int(1), string("b")), (name("1"), string("a"))]),
        ),
        (
            "a[b][c]=v",
            1,
            off,
            one("a", one("b", one("[c]", string("v")))),
        ),
        (
            "a[b][]=v",
            1,
            off,
            one("a", one("b", Tree::Sequence(vec![string("v")]))),
        ),
        ("a%5Bb%5D=1", DEPTH, on, one("a", one("b", string("1")))),
        ("a%5bb%5d=1", DEPTH, on, one("a[b]", string("1"))),
        (
            "a[b]=1&a=2",
            DEPTH,
            off,
            one(
                "a",
                map([(name(""), string("2")), (name("b"), string("1"))]),
            ),
        ),
        (
            "a&a",
            DEPTH,
            off,
            one("a", Tree::Sequence(vec![Tree::NoValue, Tree::NoValue])),
        ),
        ("a=", DEPTH, off, one("a", Tree::Null)),
        ("a=%%41", DEPTH, off, one("a", string("%%41"))),
    ];
    for (input, depth, form, tree) in &cases {
        assert_eq!(
            parse(input.as_bytes(), *depth, *form).as_ref(),
            Ok(tree),
            "{input}"
        );
    }
    println!("{} inputs accepted", cases.len());
}

#[test]
fn refused() {
    if !reference_is_there() {
        return;
    }
    let cases = [
        ("a[", false, (4, 3)),
        ("a%5B", true, (4, 5)),
        ("a[b", false, (5, 4)),
        ("a[b]=1&a[]=2", false, (6, 10)),
        ("a=1&a[]=2", false, (7, 7)),
        ("a[]=1&a[b]=2", false, (8, 9)),
        ("a=1&a[b]=2", false, (9, 7)),
        ("=1&a=2", false, (9, 7)),
        ("a=&a[b]=2", false, (10, 6)),
        ("a[b]x", false, (11, 5)),
        ("a[][b]=1", false, (12, 4)),
        ("a[]0=1", false, (13, 4)),
    ];
    for (input, form, refusal) in cases {
        assert_eq!(
            parse(input.as_bytes(), DEPTH, form),
            Err(refusal),
            "{input}"
        );
    }
    println!("{} inputs refused", cases.len());
}

#[test]
fn decoded() {
    if !reference_is_there() {
        return;
    }
    assert_eq!(decode(b"%41+%%41"), b"A %%41");
}

//! The URL Standard's application/x-www-form-urlencoded parser (url.spec.whatwg.org), which is that
//! of the crates `form_urlencoded` and `percent_encoding`; and where our decoding leaves it.

use percent_encoding::percent_decode;
use std::ops::Range;

/// The standard's names and values, in order. Its last step replaces what isn't UTF-8.
pub fn pairs(input: &[u8]) -> Vec<(String, String)> {
    form_urlencoded::parse(input).into_owned().collect()
}

/// A raw name or value before that last step: each `+` becomes a space, then percent-decode, as in
/// `form_urlencoded`.
pub fn decoded(raw: &[u8]) -> Vec<u8> {
    let spaced: Vec<u8> = raw
        .iter()
        .map(|&byte| if byte == b'+' { b' ' } else { byte })
        .collect();
    percent_decode(&spaced).collect()
}

/// The standard's raw stretches between two `&`. Those that are empty make no pair.
///
/// The crates give names and values decoded alone, and none told from an empty one; that this and
/// [`split`] are their splitting is checked by [`splits_as_the_standard`].
pub fn stretches(input: &[u8]) -> impl Iterator<Item = &[u8]> {
    input.split(|&byte| byte == b'&')
}

/// The raw name of a stretch, and its value where it has an `=`.
pub fn split(stretch: &[u8]) -> (&[u8], Option<&[u8]>) {
    match stretch.iter().position(|&byte| byte == b'=') {
        Some(place) => (&stretch[..place], Some(&stretch[place + 1..])),
        None => (stretch, None),
    }
}

/// Whether the stretches, split and decoded, are the crate's names and values, once what isn't
/// UTF-8 is replaced as it does.
pub fn splits_as_the_standard(input: &[u8]) -> bool {
    let shown = |raw: &[u8]| String::from_utf8_lossy(&decoded(raw)).into_owned();
    stretches(input)
        .filter(|stretch| !stretch.is_empty())
        .map(split)
        .map(|(name, value)| (shown(name), shown(value.unwrap_or_default())))
        .eq(form_urlencoded::parse(input).into_owned())
}

/// The failed escapes (READING, 'Decoding'): each `%` that has no two hex digits after it, with the
/// bytes that it swallows.
pub fn failed_escapes(raw: &[u8]) -> Vec<Range<usize>> {
    let hex = |place: usize| raw.get(place).is_some_and(u8::is_ascii_hexdigit);
    let mut failed = Vec::new();
    let mut place = 0;
    while place < raw.len() {
        let after = match (raw[place], hex(place + 1), hex(place + 2)) {
            (b'%', true, true) => place + 3,
            (b'%', digit, _) => {
                let end = raw.len().min(place + if digit { 3 } else { 2 });
                failed.push(place..end);
                end
            }
            _ => place + 1,
        };
        place = after;
    }
    failed
}

/// Whether a failed escape swallows a `+` or a `%`.
pub fn swallows_a_mark(raw: &[u8]) -> bool {
    failed_escapes(raw)
        .into_iter()
        .any(|escape| raw[escape][1..].iter().any(|byte| b"+%".contains(byte)))
}

//! Field reads through the crate's own deserializer: as READING, 'Field reads', has them, and as a
//! derived struct reads its field.

use crate::calls::number;
use crate::exposed::parse::{parse, ParsedValue};
use crate::{Config, Deserializer, DuplicateKeyBehavior, Error};
use serde::de::{self, DeserializeSeed, Deserializer as _, IgnoredAny, MapAccess, SeqAccess};
use std::collections::BTreeMap;
use std::fmt;
use std::sync::Mutex;

/// The text of a root field by the crate's `deserialize_str`, or the refusal's number: 4 to 13, or
/// 16 to 21. `duplicates` is the crate's `DuplicateKeyBehavior::Error`.
pub fn text(
    input: &[u8],
    depth: usize,
    form: bool,
    duplicates: bool,
    name: &str,
) -> Result<Vec<u8>, u32> {
    field(input, config(depth, form, duplicates), name, Text)
}

/// The list of a root field by the crate's `deserialize_seq`; the rest as for [`text`].
pub fn list(
    input: &[u8],
    depth: usize,
    form: bool,
    duplicates: bool,
    name: &str,
) -> Result<Vec<Vec<u8>>, u32> {
    field(input, config(depth, form, duplicates), name, List)
}

/// What `struct { name: String }` with a derived `Deserialize` gets at the usual settings, or the
/// crate's wording of its refusal.
pub fn struct_text(input: &[u8], name: &str) -> Result<Vec<u8>, String> {
    in_struct(input, name, Text)
}

/// What `struct { name: Vec<String> }` gets.
pub fn struct_list(input: &[u8], name: &str) -> Result<Vec<Vec<u8>>, String> {
    in_struct(input, name, List)
}

fn config(depth: usize, form: bool, duplicates: bool) -> Config {
    let config = Config::new().max_depth(depth).use_form_encoding(form);
    match duplicates {
        true => config.duplicate_key_behavior(DuplicateKeyBehavior::Error),
        false => config.duplicate_key_behavior(DuplicateKeyBehavior::TakeLast),
    }
}

/// Names the field twice: the crate looks for the names in turn, so one is left exactly where the
/// first was found.
fn field<'de, S: DeserializeSeed<'de>>(
    input: &'de [u8],
    config: Config,
    name: &str,
    seed: S,
) -> Result<S::Value, u32> {
    let deserializer = match Deserializer::with_config(config, input) {
        Ok(deserializer) => deserializer,
        Err(Error::Parse(wording, _)) => return Err(number(&wording)),
        Err(other) => {
            unreachable!("a reading refuses with Error::Parse only, and not with {other}")
        }
    };
    let single = matches!(parse(input, config), Ok(ParsedValue::String(_)));
    let read = if single {
        let named = name.is_empty();
        deserializer.deserialize_map(Field { seed, named })
    } else {
        let named = false;
        deserializer.deserialize_struct("", &fields(name)[..], Field { seed, named })
    };
    match read {
        Ok(Some(value)) => value,
        Ok(None) => Err(17),
        // The crate met no map, and asked the visitor for none.
        Err(_) => Err(16),
    }
}

/// Reads the map's first value where its key is the field; `named` says so beforehand. It never
/// fails itself.
struct Field<S> {
    seed: S,
    named: bool,
}

impl<'de, S: DeserializeSeed<'de>> de::Visitor<'de> for Field<S> {
    type Value = Option<Result<S::Value, u32>>;

    fn expecting(&self, f: &mut fmt::Formatter) -> fmt::Result {
        f.write_str("a map")
    }

    fn visit_map<A: MapAccess<'de>>(self, mut map: A) -> Result<Self::Value, A::Error> {
        // Another key may come first, and may not be UTF-8.
        let Ok(Some(IgnoredAny)) = map.next_key() else {
            return Ok(None);
        };
        if !self.named && map.size_hint() != Some(1) {
            return Ok(None);
        }
        let value = map.next_value_seed(self.seed);
        Ok(Some(value.map_err(|error| number(&error.to_string()))))
    }
}

fn in_struct<'de, S: DeserializeSeed<'de> + Copy>(
    input: &'de [u8],
    name: &str,
    seed: S,
) -> Result<S::Value, String> {
    let fields = fields(name);
    let (name, visitor_fields) = (fields[0], &fields[..1]);
    Deserializer::with_config(Config::new(), input)
        .and_then(|deserializer| {
            deserializer.deserialize_struct("", visitor_fields, Derived { seed, name })
        })
        .map_err(|error| error.to_string())
}

/// The visitor that `derive(Deserialize)` writes for a struct of one field; here it is written by
/// hand.
struct Derived<S> {
    seed: S,
    name: &'static str,
}

impl<'de, S: DeserializeSeed<'de> + Copy> de::Visitor<'de> for Derived<S> {
    type Value = S::Value;

    fn expecting(&self, f: &mut fmt::Formatter) -> fmt::Result {
        f.write_str("struct")
    }

    fn visit_map<A: MapAccess<'de>>(self, mut map: A) -> Result<S::Value, A::Error> {
        let mut field = None;
        while let Some(key) = map.next_key_seed(Text)? {
            if key != self.name.as_bytes() {
                map.next_value::<IgnoredAny>()?;
            } else if field.is_some() {
                return Err(de::Error::duplicate_field(self.name));
            } else {
                field = Some(map.next_value_seed(self.seed)?);
            }
        }
        field.ok_or_else(|| de::Error::missing_field(self.name))
    }
}

/// A text, by `deserialize_str`.
#[derive(Clone, Copy)]
struct Text;

impl<'de> DeserializeSeed<'de> for Text {
    type Value = Vec<u8>;

    fn deserialize<D: de::Deserializer<'de>>(self, deserializer: D) -> Result<Vec<u8>, D::Error> {
        deserializer.deserialize_str(self)
    }
}

impl de::Visitor<'_> for Text {
    type Value = Vec<u8>;

    fn expecting(&self, f: &mut fmt::Formatter) -> fmt::Result {
        f.write_str("a text")
    }

    fn visit_str<E>(self, text: &str) -> Result<Vec<u8>, E> {
        Ok(text.into())
    }
}

/// A list of texts, by `deserialize_seq`.
#[derive(Clone, Copy)]
struct List;

impl<'de> DeserializeSeed<'de> for List {
    type Value = Vec<Vec<u8>>;

    fn deserialize<D: de::Deserializer<'de>>(
        self,
        deserializer: D,
    ) -> Result<Self::Value, D::Error> {
        deserializer.deserialize_seq(self)
    }
}

impl<'de> de::Visitor<'de> for List {
    type Value = Vec<Vec<u8>>;

    fn expecting(&self, f: &mut fmt::Formatter) -> fmt::Result {
        f.write_str("a list")
    }

    fn visit_seq<A: SeqAccess<'de>>(self, mut elements: A) -> Result<Self::Value, A::Error> {
        let mut list = Vec::new();
        while let Some(element) = elements.next_element_seed(Text)? {
            list.push(element);
        }
        Ok(list)
    }
}

/// The name twice, for good: the crate takes names that live for ever, and each is kept once.
fn fields(name: &str) -> &'static [&'static str; 2] {
    static KEPT: Mutex<BTreeMap<String, &'static [&'static str; 2]>> = Mutex::new(BTreeMap::new());
    let mut kept = KEPT.lock().expect("no reader of names fails");
    kept.entry(name.to_owned()).or_insert_with(|| {
        let name: &'static str = Box::leak(name.to_owned().into_boxed_str());
        Box::leak(Box::new([name; 2]))
    })
}

//! config.rs names the crate's serializer, which nothing here compares with. This one stands in for
//! it so that config.rs compiles, and refuses everything.

use crate::{Config, Error};
use serde::ser::{self, Impossible, Serialize};
use std::fmt::Display;
use std::marker::PhantomData;

pub struct Serializer<'a, W>(PhantomData<&'a mut W>);

impl<'a, W> Serializer<'a, W> {
    pub fn new(_writer: &'a mut W, _config: Config) -> Self {
        Serializer(PhantomData)
    }
}

impl ser::Error for Error {
    fn custom<T: Display>(message: T) -> Self {
        Error::Custom(message.to_string())
    }
}

type Refused<T = Impossible<(), Error>> = Result<T, Error>;

macro_rules! refuse {
    ($($method:ident($($argument:ty),*) -> $result:ty;)*) => {
        $(fn $method(self $(, _: $argument)*) -> $result { Err(Error::Unsupported) })*
    };
}

impl<W> ser::Serializer for &mut Serializer<'_, W> {
    type Ok = ();
    type Error = Error;
    type SerializeSeq = Impossible<(), Error>;
    type SerializeTuple = Impossible<(), Error>;
    type SerializeTupleStruct = Impossible<(), Error>;
    type SerializeTupleVariant = Impossible<(), Error>;
    type SerializeMap = Impossible<(), Error>;
    type SerializeStruct = Impossible<(), Error>;
    type SerializeStructVariant = Impossible<(), Error>;

    refuse! {
        serialize_bool(bool) -> Refused<()>;
        serialize_i8(i8) -> Refused<()>;
        serialize_i16(i16) -> Refused<()>;
        serialize_i32(i32) -> Refused<()>;
        serialize_i64(i64) -> Refused<()>;
        serialize_u8(u8) -> Refused<()>;
        serialize_u16(u16) -> Refused<()>;
        serialize_u32(u32) -> Refused<()>;
        serialize_u64(u64) -> Refused<()>;
        serialize_f32(f32) -> Refused<()>;
        serialize_f64(f64) -> Refused<()>;
        serialize_char(char) -> Refused<()>;
        serialize_str(&str) -> Refused<()>;
        serialize_bytes(&[u8]) -> Refused<()>;
        serialize_none() -> Refused<()>;
        serialize_unit() -> Refused<()>;
        serialize_unit_struct(&'static str) -> Refused<()>;
        serialize_unit_variant(&'static str, u32, &'static str) -> Refused<()>;
        serialize_seq(Option<usize>) -> Refused;
        serialize_tuple(usize) -> Refused;
        serialize_tuple_struct(&'static str, usize) -> Refused;
        serialize_tuple_variant(&'static str, u32, &'static str, usize) -> Refused;
        serialize_map(Option<usize>) -> Refused;
        serialize_struct(&'static str, usize) -> Refused;
        serialize_struct_variant(&'static str, u32, &'static str, usize) -> Refused;
    }

    fn serialize_some<T: ?Sized + Serialize>(self, _: &T) -> Refused<()> {
        Err(Error::Unsupported)
    }

    fn serialize_newtype_struct<T: ?Sized + Serialize>(
        self,
        _: &'static str,
        _: &T,
    ) -> Refused<()> {
        Err(Error::Unsupported)
    }

    fn serialize_newtype_variant<T: ?Sized + Serialize>(
        self,
        _: &'static str,
        _: u32,
        _: &'static str,
        _: &T,
    ) -> Refused<()> {
        Err(Error::Unsupported)
    }
}

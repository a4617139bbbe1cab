//! Whether the key of a map of one pair is a tag.

use super::{check_for_tag, MaybeTag};
use crate::error::{self, Error, Fault};
use serde::ser::{Impossible, Serialize, Serializer};
use std::fmt::Display;

/// Answers the name of the tag that a key is displayed as, and refuses each other key.
pub(crate) struct TagProbe;

type Refused = Impossible<String, Error>;

fn no_tag<T>() -> Result<T, Error> {
    Err(error::new(Fault::NoDocument))
}

macro_rules! refuse {
    ($($answer:ty: $($call:ident($($kind:ty),*))*;)*) => {$($(
        fn $call(self, $(_: $kind),*) -> Result<$answer, Error> {
            no_tag()
        }
    )*)*};
}

type Name = &'static str;

impl Serializer for TagProbe {
    type Ok = String;
    type Error = Error;
    type SerializeSeq = Refused;
    type SerializeTuple = Refused;
    type SerializeTupleStruct = Refused;
    type SerializeTupleVariant = Refused;
    type SerializeMap = Refused;
    type SerializeStruct = Refused;
    type SerializeStructVariant = Refused;

    fn collect_str<T: ?Sized + Display>(self, value: &T) -> Result<String, Error> {
        match check_for_tag(value) {
            MaybeTag::Tag(name) => Ok(name),
            MaybeTag::NotTag(_) => no_tag(),
        }
    }

    refuse! {
        String:
            serialize_bool(bool) serialize_char(char) serialize_str(&str) serialize_bytes(&[u8])
            serialize_i8(i8) serialize_i16(i16) serialize_i32(i32) serialize_i64(i64)
            serialize_u8(u8) serialize_u16(u16) serialize_u32(u32) serialize_u64(u64)
            serialize_f32(f32) serialize_f64(f64)
            serialize_unit() serialize_none() serialize_unit_struct(Name) serialize_unit_variant(Name, u32, Name);
        Refused:
            serialize_seq(Option<usize>) serialize_tuple(usize) serialize_tuple_struct(Name, usize)
            serialize_tuple_variant(Name, u32, Name, usize) serialize_map(Option<usize>)
            serialize_struct(Name, usize) serialize_struct_variant(Name, u32, Name, usize);
    }

    fn serialize_some<T: ?Sized + Serialize>(self, value: &T) -> Result<String, Error> {
        value.serialize(self)
    }

    fn serialize_newtype_struct<T: ?Sized + Serialize>(self, _: Name, value: &T) -> Result<String, Error> {
        value.serialize(self)
    }

    fn serialize_newtype_variant<T: ?Sized + Serialize>(
        self,
        _: Name,
        _: u32,
        _: Name,
        _: &T,
    ) -> Result<String, Error> {
        no_tag()
    }
}

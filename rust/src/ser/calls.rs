//! The calls of a type that is written.

use super::{Serializer, State};
use crate::error::{self, Error, Fault, Result};
use crate::rows::{Kind, Row};
use crate::value::{check_for_tag, MaybeTag};
use serde::ser::{self, Serialize};
use std::fmt::Display;
use std::io;

macro_rules! scalars {
    ($($call:ident $kind:ty, $wide:ty => $row:ident;)*) => {$(
        fn $call(self, value: $kind) -> Result<()> {
            self.scalar(Row::$row(<$wide>::from(value)))
        }
    )*};
}

impl<W> ser::Serializer for &mut Serializer<W>
where
    W: io::Write,
{
    type Ok = ();
    type Error = Error;

    type SerializeSeq = Self;
    type SerializeTuple = Self;
    type SerializeTupleStruct = Self;
    type SerializeTupleVariant = Self;
    type SerializeMap = Self;
    type SerializeStruct = Self;
    type SerializeStructVariant = Self;

    scalars! {
        serialize_i8 i8, i128 => signed;
        serialize_i16 i16, i128 => signed;
        serialize_i32 i32, i128 => signed;
        serialize_i64 i64, i128 => signed;
        serialize_i128 i128, i128 => signed;
        serialize_u8 u8, u128 => unsigned;
        serialize_u16 u16, u128 => unsigned;
        serialize_u32 u32, u128 => unsigned;
        serialize_u64 u64, u128 => unsigned;
        serialize_u128 u128, u128 => unsigned;
        serialize_f32 f32, f32 => float32;
        serialize_f64 f64, f64 => float;
        serialize_bool bool, bool => boolean;
    }

    fn serialize_char(self, value: char) -> Result<()> {
        self.text(value.encode_utf8(&mut [0; 4]), Row::of(Kind::String).in_quotes())
    }

    fn serialize_str(self, value: &str) -> Result<()> {
        self.text(value, Row::of(Kind::String))
    }

    fn serialize_bytes(self, _value: &[u8]) -> Result<()> {
        Err(error::new(Fault::BytesUnsupported))
    }

    fn serialize_unit(self) -> Result<()> {
        self.scalar(Row::of(Kind::Null))
    }

    fn serialize_unit_struct(self, _name: &'static str) -> Result<()> {
        self.serialize_unit()
    }

    fn serialize_unit_variant(self, _name: &'static str, _index: u32, variant: &'static str) -> Result<()> {
        self.serialize_str(variant)
    }

    fn serialize_newtype_struct<T: ?Sized + Serialize>(self, _name: &'static str, value: &T) -> Result<()> {
        value.serialize(self)
    }

    fn serialize_newtype_variant<T: ?Sized + Serialize>(
        self,
        _name: &'static str,
        _index: u32,
        variant: &'static str,
        value: &T,
    ) -> Result<()> {
        self.variant(variant)?;
        value.serialize(self)
    }

    fn serialize_none(self) -> Result<()> {
        self.serialize_unit()
    }

    fn serialize_some<T: ?Sized + Serialize>(self, value: &T) -> Result<()> {
        value.serialize(self)
    }

    fn serialize_seq(self, _len: Option<usize>) -> Result<Self> {
        self.begin(Kind::Sequence)?;
        Ok(self)
    }

    fn serialize_tuple(self, _len: usize) -> Result<Self> {
        self.serialize_seq(None)
    }

    fn serialize_tuple_struct(self, _name: &'static str, _len: usize) -> Result<Self> {
        self.serialize_seq(None)
    }

    fn serialize_tuple_variant(self, _: &'static str, _: u32, variant: &'static str, _len: usize) -> Result<Self> {
        self.variant(variant)?;
        self.serialize_seq(None)
    }

    fn serialize_map(self, len: Option<usize>) -> Result<Self> {
        let is_tagged = matches!(self.state, State::FoundTag(_));
        self.begin(Kind::Mapping)?;
        if len == Some(1) {
            self.state = if is_tagged { State::CheckForDuplicateTag } else { State::CheckForTag };
        }
        Ok(self)
    }

    fn serialize_struct(self, _name: &'static str, _len: usize) -> Result<Self> {
        self.serialize_map(None)
    }

    fn serialize_struct_variant(self, _: &'static str, _: u32, variant: &'static str, _len: usize) -> Result<Self> {
        self.variant(variant)?;
        self.serialize_map(None)
    }

    fn collect_str<T: ?Sized + Display>(self, value: &T) -> Result<()> {
        let text = match self.state {
            State::CheckForTag | State::CheckForDuplicateTag => match check_for_tag(value) {
                MaybeTag::NotTag(text) => text,
                MaybeTag::Tag(_) if matches!(self.state, State::CheckForDuplicateTag) => {
                    return Err(error::new(Fault::SerializeNestedEnum));
                }
                MaybeTag::Tag(tag) => {
                    self.tag(tag);
                    return Ok(());
                }
            },
            _ => value.to_string(),
        };
        self.serialize_str(&text)
    }
}

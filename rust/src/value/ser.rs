//! Writing of values, and of types as values.

use super::probe::TagProbe;
use super::{Mapping, Sequence, Tag, TaggedValue, Value};
use crate::error::{self, Error, Fault};
use serde::ser::{self, Serialize};

type Result<T, E = Error> = std::result::Result<T, E>;

impl Serialize for Value {
    fn serialize<S: ser::Serializer>(&self, serializer: S) -> Result<S::Ok, S::Error> {
        match self {
            Value::Null => serializer.serialize_unit(),
            Value::Bool(truth) => serializer.serialize_bool(*truth),
            Value::Number(number) => number.serialize(serializer),
            Value::String(text) => serializer.serialize_str(text),
            Value::Sequence(sequence) => sequence.serialize(serializer),
            Value::Mapping(mapping) => mapping.serialize(serializer),
            Value::Tagged(tagged) => tagged.serialize(serializer),
        }
    }
}

/// Makes a [`Value`] of what is serialized.
pub struct Serializer;

/// Elements that are collected, and the tag that their sequence gets.
#[doc(hidden)]
pub struct Elements {
    tag: Option<&'static str>,
    sequence: Sequence,
}

/// Pairs that are collected, and the tag that their mapping gets.
#[doc(hidden)]
pub struct Pairs {
    tag: Option<&'static str>,
    mapping: Mapping,
    // of a map that may be a tag and its value
    may_be_tag: bool,
    tagged: Option<TaggedValue>,
    key: Option<Value>,
}

fn under(tag: Option<&'static str>, value: Value) -> Value {
    match tag {
        Some(tag) => Value::Tagged(Box::new(TaggedValue { tag: Tag { string: tag.to_owned() }, value })),
        None => value,
    }
}

fn elements(tag: Option<&'static str>, len: Option<usize>) -> Result<Elements> {
    Ok(Elements { tag, sequence: Vec::with_capacity(len.unwrap_or(0).min(4096)) })
}

fn pairs(tag: Option<&'static str>, may_be_tag: bool) -> Result<Pairs> {
    Ok(Pairs { tag, mapping: Mapping::new(), may_be_tag, tagged: None, key: None })
}

macro_rules! numbers {
    ($($call:ident $kind:ty;)*) => {$(
        fn $call(self, number: $kind) -> Result<Value> {
            Ok(number.into())
        }
    )*};
}

impl ser::Serializer for Serializer {
    type Ok = Value;
    type Error = Error;
    type SerializeSeq = Elements;
    type SerializeTuple = Elements;
    type SerializeTupleStruct = Elements;
    type SerializeTupleVariant = Elements;
    type SerializeMap = Pairs;
    type SerializeStruct = Pairs;
    type SerializeStructVariant = Pairs;

    numbers! {
        serialize_bool bool;
        serialize_i8 i8;
        serialize_i16 i16;
        serialize_i32 i32;
        serialize_i64 i64;
        serialize_u8 u8;
        serialize_u16 u16;
        serialize_u32 u32;
        serialize_u64 u64;
        serialize_f32 f32;
        serialize_f64 f64;
        serialize_str &str;
    }

    fn serialize_i128(self, number: i128) -> Result<Value> {
        match (u64::try_from(number), i64::try_from(number)) {
            (Ok(number), _) => Ok(number.into()),
            (_, Ok(number)) => Ok(number.into()),
            _ => Ok((number as f64).into()),
        }
    }

    fn serialize_u128(self, number: u128) -> Result<Value> {
        match u64::try_from(number) {
            Ok(number) => Ok(number.into()),
            Err(_) => Ok((number as f64).into()),
        }
    }

    fn serialize_char(self, character: char) -> Result<Value> {
        Ok(Value::String(character.to_string()))
    }

    fn serialize_bytes(self, bytes: &[u8]) -> Result<Value> {
        Ok(bytes.iter().copied().collect())
    }

    fn serialize_unit(self) -> Result<Value> {
        Ok(Value::Null)
    }

    fn serialize_unit_struct(self, _name: &'static str) -> Result<Value> {
        self.serialize_unit()
    }

    fn serialize_unit_variant(self, _name: &'static str, _index: u32, variant: &'static str) -> Result<Value> {
        self.serialize_str(variant)
    }

    fn serialize_newtype_struct<T: ?Sized + Serialize>(self, _name: &'static str, value: &T) -> Result<Value> {
        value.serialize(self)
    }

    fn serialize_newtype_variant<T: ?Sized + Serialize>(
        self,
        _name: &'static str,
        _index: u32,
        variant: &'static str,
        value: &T,
    ) -> Result<Value> {
        Ok(under(Some(variant), value.serialize(self)?))
    }

    fn serialize_none(self) -> Result<Value> {
        self.serialize_unit()
    }

    fn serialize_some<T: ?Sized + Serialize>(self, value: &T) -> Result<Value> {
        value.serialize(self)
    }

    fn serialize_seq(self, len: Option<usize>) -> Result<Elements> {
        elements(None, len)
    }

    fn serialize_tuple(self, len: usize) -> Result<Elements> {
        elements(None, Some(len))
    }

    fn serialize_tuple_struct(self, _name: &'static str, len: usize) -> Result<Elements> {
        elements(None, Some(len))
    }

    fn serialize_tuple_variant(self, _: &'static str, _: u32, variant: &'static str, len: usize) -> Result<Elements> {
        elements(Some(variant), Some(len))
    }

    fn serialize_map(self, len: Option<usize>) -> Result<Pairs> {
        pairs(None, len == Some(1))
    }

    fn serialize_struct(self, _name: &'static str, _len: usize) -> Result<Pairs> {
        pairs(None, false)
    }

    fn serialize_struct_variant(self, _: &'static str, _: u32, variant: &'static str, _len: usize) -> Result<Pairs> {
        pairs(Some(variant), false)
    }
}

macro_rules! serialize_elements {
    ($($name:ident $call:ident)*) => {$(
        impl ser::$name for Elements {
            type Ok = Value;
            type Error = Error;

            fn $call<T: ?Sized + Serialize>(&mut self, value: &T) -> Result<()> {
                self.sequence.push(value.serialize(Serializer)?);
                Ok(())
            }

            fn end(self) -> Result<Value> {
                Ok(under(self.tag, Value::Sequence(self.sequence)))
            }
        }
    )*};
}

serialize_elements! {
    SerializeSeq serialize_element
    SerializeTuple serialize_element
    SerializeTupleStruct serialize_field
    SerializeTupleVariant serialize_field
}

impl ser::SerializeMap for Pairs {
    type Ok = Value;
    type Error = Error;

    fn serialize_key<T: ?Sized + Serialize>(&mut self, key: &T) -> Result<()> {
        self.may_be_tag = false;
        self.key = Some(key.serialize(Serializer)?);
        Ok(())
    }

    fn serialize_value<T: ?Sized + Serialize>(&mut self, value: &T) -> Result<()> {
        let key = self.key.take().ok_or_else(|| error::new(Fault::NoDocument))?;
        self.mapping.insert(key, value.serialize(Serializer)?);
        Ok(())
    }

    fn serialize_entry<K: ?Sized + Serialize, T: ?Sized + Serialize>(&mut self, key: &K, value: &T) -> Result<()> {
        if std::mem::take(&mut self.may_be_tag) {
            if let Ok(string) = key.serialize(TagProbe) {
                self.tagged = Some(TaggedValue { tag: Tag { string }, value: value.serialize(Serializer)? });
                return Ok(());
            }
        }
        self.serialize_key(key)?;
        self.serialize_value(value)
    }

    fn end(self) -> Result<Value> {
        Ok(match self.tagged {
            Some(tagged) => Value::Tagged(Box::new(tagged)),
            None => Value::Mapping(self.mapping),
        })
    }
}

macro_rules! serialize_fields {
    ($($name:ident)*) => {$(
        impl ser::$name for Pairs {
            type Ok = Value;
            type Error = Error;

            fn serialize_field<T: ?Sized + Serialize>(&mut self, key: &'static str, value: &T) -> Result<()> {
                self.mapping.insert(key.into(), value.serialize(Serializer)?);
                Ok(())
            }

            fn end(self) -> Result<Value> {
                Ok(under(self.tag, Value::Mapping(self.mapping)))
            }
        }
    )*};
}

serialize_fields!(SerializeStruct SerializeStructVariant);

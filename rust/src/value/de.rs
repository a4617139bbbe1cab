//! Reading of types from values.

use super::{Mapping, Sequence, TaggedValue, Value};
use crate::error::Error;
use serde::de::value::{MapDeserializer, SeqDeserializer};
use serde::de::{
    self, Deserialize, DeserializeSeed, Deserializer, EnumAccess, Expected, IntoDeserializer, MapAccess, Unexpected,
    VariantAccess, Visitor,
};

type Result<T, E = Error> = std::result::Result<T, E>;

impl Value {
    #[cold]
    fn unexpected(&self) -> Unexpected<'_> {
        match self {
            Value::Null => Unexpected::Unit,
            Value::Bool(truth) => Unexpected::Bool(*truth),
            Value::Number(number) => number.unexpected(),
            Value::String(text) => Unexpected::Str(text),
            Value::Sequence(_) => Unexpected::Seq,
            Value::Mapping(_) => Unexpected::Map,
            Value::Tagged(_) => Unexpected::Enum,
        }
    }

    #[cold]
    fn mismatch<T>(&self, expected: &dyn Expected) -> Result<T> {
        Err(de::Error::invalid_type(self.unexpected(), expected))
    }
}

fn visit_elements<'de, V, I>(elements: I, visitor: V) -> Result<V::Value>
where
    V: Visitor<'de>,
    I: ExactSizeIterator,
    I::Item: IntoDeserializer<'de, Error>,
{
    let len = elements.len();
    let mut elements = SeqDeserializer::<_, Error>::new(elements);
    let value = visitor.visit_seq(&mut elements)?;
    match de::SeqAccess::size_hint(&elements) {
        Some(0) => Ok(value),
        _ => Err(de::Error::invalid_length(len, &"fewer elements in sequence")),
    }
}

fn visit_pairs<'de, V, I, T>(pairs: I, visitor: V) -> Result<V::Value>
where
    V: Visitor<'de>,
    T: IntoDeserializer<'de, Error>,
    I: ExactSizeIterator<Item = (T, T)>,
{
    let len = pairs.len();
    let mut pairs = MapDeserializer::<_, Error>::new(pairs);
    let value = visitor.visit_map(&mut pairs)?;
    match MapAccess::size_hint(&pairs) {
        Some(0) => Ok(value),
        _ => Err(de::Error::invalid_length(len, &"fewer elements in map")),
    }
}

// A variant: its name, and its content if it is tagged.
pub(super) struct Variant<N, T> {
    pub(super) name: N,
    pub(super) content: Option<T>,
}

impl<'de, N, T> EnumAccess<'de> for Variant<N, T>
where
    N: IntoDeserializer<'de, Error>,
    Content<T>: VariantAccess<'de, Error = Error>,
{
    type Error = Error;
    type Variant = Content<T>;

    fn variant_seed<S: DeserializeSeed<'de>>(self, seed: S) -> Result<(S::Value, Content<T>)> {
        Ok((seed.deserialize(self.name.into_deserializer())?, Content(self.content)))
    }
}

pub(super) struct Content<T>(Option<T>);

fn no_content<T>(expected: &'static str) -> Result<T> {
    Err(de::Error::invalid_type(Unexpected::UnitVariant, &expected))
}

macro_rules! numbers {
    ($($call:ident)*) => {$(
        fn $call<V: Visitor<'de>>(self, visitor: V) -> Result<V::Value> {
            match bare(self) {
                Value::Number(number) => number.deserialize_any(visitor),
                other => other.mismatch(&visitor),
            }
        }
    )*};
}

// The deserializers of a value that is given and of one that is lent are the same but for a few words.
macro_rules! value_deserializer {
    ($module:ident, $holder:ty, $untag:ident, $name:ident: $own:expr, $tag:expr, $visit_text:ident, $given:expr) => {
        mod $module {
            use super::*;

            #[allow(clippy::extra_unused_lifetimes)]
            fn bare<'de>(value: $holder) -> $holder {
                value.$untag()
            }

            impl<'de> VariantAccess<'de> for Content<$holder> {
                type Error = Error;

                fn unit_variant(self) -> Result<()> {
                    self.0.map_or(Ok(()), Deserialize::deserialize)
                }

                fn newtype_variant_seed<S: DeserializeSeed<'de>>(self, seed: S) -> Result<S::Value> {
                    match self.0 {
                        Some(value) => seed.deserialize(value),
                        None => no_content("newtype variant"),
                    }
                }

                fn tuple_variant<V: Visitor<'de>>(self, _len: usize, visitor: V) -> Result<V::Value> {
                    match self.0 {
                        Some(Value::Sequence(elements)) => visit_elements(elements.into_iter(), visitor),
                        Some(other) => other.mismatch(&"tuple variant"),
                        None => no_content("tuple variant"),
                    }
                }

                fn struct_variant<V: Visitor<'de>>(
                    self,
                    _fields: &'static [&'static str],
                    visitor: V,
                ) -> Result<V::Value> {
                    match self.0 {
                        Some(Value::Mapping(pairs)) => visit_pairs(pairs.into_iter(), visitor),
                        Some(other) => other.mismatch(&"struct variant"),
                        None => no_content("struct variant"),
                    }
                }
            }

            impl<'de> IntoDeserializer<'de, Error> for $holder {
                type Deserializer = Self;

                fn into_deserializer(self) -> Self {
                    self
                }
            }

            impl<'de> Deserializer<'de> for $holder {
                type Error = Error;

                fn deserialize_any<V: Visitor<'de>>(self, visitor: V) -> Result<V::Value> {
                    match self {
                        Value::Null => visitor.visit_unit(),
                        Value::Bool(truth) => visitor.visit_bool($given(truth)),
                        Value::Number(number) => number.deserialize_any(visitor),
                        Value::String(text) => visitor.$visit_text(text),
                        Value::Sequence(elements) => visit_elements(elements.into_iter(), visitor),
                        Value::Mapping(pairs) => visit_pairs(pairs.into_iter(), visitor),
                        Value::Tagged(_) => self.deserialize_enum("", &[], visitor),
                    }
                }

                numbers! {
                    deserialize_i8 deserialize_i16 deserialize_i32 deserialize_i64 deserialize_i128
                    deserialize_u8 deserialize_u16 deserialize_u32 deserialize_u64 deserialize_u128
                    deserialize_f32 deserialize_f64
                }

                fn deserialize_bool<V: Visitor<'de>>(self, visitor: V) -> Result<V::Value> {
                    match bare(self) {
                        Value::Bool(truth) => visitor.visit_bool($given(truth)),
                        other => other.mismatch(&visitor),
                    }
                }

                fn deserialize_str<V: Visitor<'de>>(self, visitor: V) -> Result<V::Value> {
                    match bare(self) {
                        Value::String(text) => visitor.$visit_text(text),
                        other => other.mismatch(&visitor),
                    }
                }

                fn deserialize_char<V: Visitor<'de>>(self, visitor: V) -> Result<V::Value> {
                    self.deserialize_str(visitor)
                }

                fn deserialize_string<V: Visitor<'de>>(self, visitor: V) -> Result<V::Value> {
                    self.deserialize_str(visitor)
                }

                fn deserialize_identifier<V: Visitor<'de>>(self, visitor: V) -> Result<V::Value> {
                    self.deserialize_str(visitor)
                }

                fn deserialize_bytes<V: Visitor<'de>>(self, visitor: V) -> Result<V::Value> {
                    match bare(self) {
                        Value::String(text) => visitor.$visit_text(text),
                        Value::Sequence(elements) => visit_elements(elements.into_iter(), visitor),
                        other => other.mismatch(&visitor),
                    }
                }

                fn deserialize_byte_buf<V: Visitor<'de>>(self, visitor: V) -> Result<V::Value> {
                    self.deserialize_bytes(visitor)
                }

                fn deserialize_option<V: Visitor<'de>>(self, visitor: V) -> Result<V::Value> {
                    match self {
                        Value::Null => visitor.visit_none(),
                        _ => visitor.visit_some(self),
                    }
                }

                fn deserialize_unit<V: Visitor<'de>>(self, visitor: V) -> Result<V::Value> {
                    match self {
                        Value::Null => visitor.visit_unit(),
                        other => other.mismatch(&visitor),
                    }
                }

                fn deserialize_unit_struct<V: Visitor<'de>>(self, _: &'static str, visitor: V) -> Result<V::Value> {
                    self.deserialize_unit(visitor)
                }

                fn deserialize_newtype_struct<V: Visitor<'de>>(self, _: &'static str, visitor: V) -> Result<V::Value> {
                    visitor.visit_newtype_struct(self)
                }

                fn deserialize_seq<V: Visitor<'de>>(self, visitor: V) -> Result<V::Value> {
                    match bare(self) {
                        Value::Sequence(elements) => visit_elements(elements.into_iter(), visitor),
                        Value::Null => visit_elements(Sequence::new().into_iter(), visitor),
                        other => other.mismatch(&visitor),
                    }
                }

                fn deserialize_tuple<V: Visitor<'de>>(self, _: usize, visitor: V) -> Result<V::Value> {
                    self.deserialize_seq(visitor)
                }

                fn deserialize_tuple_struct<V: Visitor<'de>>(
                    self,
                    _: &'static str,
                    _: usize,
                    visitor: V,
                ) -> Result<V::Value> {
                    self.deserialize_seq(visitor)
                }

                fn deserialize_map<V: Visitor<'de>>(self, visitor: V) -> Result<V::Value> {
                    match bare(self) {
                        Value::Mapping(pairs) => visit_pairs(pairs.into_iter(), visitor),
                        Value::Null => visit_pairs(Mapping::new().into_iter(), visitor),
                        other => other.mismatch(&visitor),
                    }
                }

                fn deserialize_struct<V: Visitor<'de>>(
                    self,
                    _: &'static str,
                    _: &'static [&'static str],
                    visitor: V,
                ) -> Result<V::Value> {
                    self.deserialize_map(visitor)
                }

                fn deserialize_enum<V: Visitor<'de>>(
                    self,
                    _: &'static str,
                    _: &'static [&'static str],
                    visitor: V,
                ) -> Result<V::Value> {
                    match self {
                        Value::Tagged(tagged) => visitor.visit_enum($tag(tagged)),
                        Value::String($name) => visitor.visit_enum(Variant::<_, $holder> { name: $own, content: None }),
                        other => other.mismatch(&"a Value::Tagged enum"),
                    }
                }

                fn deserialize_ignored_any<V: Visitor<'de>>(self, visitor: V) -> Result<V::Value> {
                    visitor.visit_unit()
                }
            }
        }
    };
}

value_deserializer!(
    given, Value, untag, name: name,
    |tagged: Box<TaggedValue>| Variant { name: tagged.tag.name().to_owned(), content: Some(tagged.value) },
    visit_string, |truth: bool| truth
);
value_deserializer!(
    lent, &'de Value, untag_ref, name: name.as_str(),
    |tagged: &'de TaggedValue| Variant { name: tagged.tag.name(), content: Some(&tagged.value) },
    visit_borrowed_str, |truth: &bool| *truth
);

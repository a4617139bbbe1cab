//! The parts of collections and of variants.

use super::reader::{Reader, Variant};
use crate::error::{Error, Result};
use crate::path::Path;
use crate::rows::Kind;
use serde::de::value::StrDeserializer;
use serde::de::{self, Deserialize, DeserializeSeed, Unexpected, Visitor};

/// The elements of a sequence.
pub(crate) struct SeqAccess<'de, 'r, 's> {
    pub reader: &'s mut Reader<'de, 'r>,
    /// How many were gone past.
    pub len: usize,
    pub is_empty: bool,
}

impl<'de> de::SeqAccess<'de> for SeqAccess<'de, '_, '_> {
    type Error = Error;

    fn next_element_seed<T: DeserializeSeed<'de>>(&mut self, seed: T) -> Result<Option<T::Value>> {
        if self.is_empty || self.reader.peek()?.kind() == Kind::SequenceEnd {
            return Ok(None);
        }
        let index = self.len;
        self.len += 1;
        seed.deserialize(&mut self.reader.part(|parent| Path::Seq { parent, index })).map(Some)
    }
}

/// The pairs of a mapping.
pub(crate) struct MapAccess<'de, 'r, 's> {
    pub reader: &'s mut Reader<'de, 'r>,
    /// How many were begun.
    pub len: usize,
    pub is_empty: bool,
    /// The text of the last key, if that was a scalar.
    pub key: Option<&'r str>,
}

impl<'de> de::MapAccess<'de> for MapAccess<'de, '_, '_> {
    type Error = Error;

    fn next_key_seed<K: DeserializeSeed<'de>>(&mut self, seed: K) -> Result<Option<K::Value>> {
        if self.is_empty {
            return Ok(None);
        }
        let row = self.reader.peek()?;
        if row.kind() == Kind::MappingEnd {
            return Ok(None);
        }
        self.len += 1;
        let loaded = self.reader.document.loaded();
        self.key = row.is_scalar().then(|| loaded.text(row).as_str());
        seed.deserialize(&mut *self.reader).map(Some)
    }

    fn next_value_seed<T: DeserializeSeed<'de>>(&mut self, seed: T) -> Result<T::Value> {
        let key = self.key;
        seed.deserialize(&mut self.reader.part(|parent| match key {
            Some(key) => Path::Map { parent, key },
            None => Path::Unknown { parent },
        }))
    }
}

/// A variant that a local tag names.
pub(crate) struct TagAccess<'de, 'r, 's> {
    pub reader: &'s mut Reader<'de, 'r>,
    pub variant: Variant<'r>,
}

impl<'de, 's> de::EnumAccess<'de> for TagAccess<'de, '_, 's> {
    type Error = Error;
    type Variant = Reader<'de, 's>;

    fn variant_seed<T: DeserializeSeed<'de>>(self, seed: T) -> Result<(T::Value, Reader<'de, 's>)> {
        let name = seed.deserialize(StrDeserializer::<Error>::new(self.variant.tag))?;
        let Variant { name: of, tag } = self.variant;
        let content = Reader {
            document: self.reader.document,
            path: self.reader.path,
            depth: self.reader.depth,
            at: self.reader.at,
            follows: self.reader.follows,
            variant: Some(Variant { name: of, tag }),
        };
        Ok((name, content))
    }
}

impl<'de> de::VariantAccess<'de> for Reader<'de, '_> {
    type Error = Error;

    fn unit_variant(mut self) -> Result<()> {
        Deserialize::deserialize(&mut self)
    }

    fn newtype_variant_seed<T: DeserializeSeed<'de>>(mut self, seed: T) -> Result<T::Value> {
        seed.deserialize(&mut self)
    }

    fn tuple_variant<V: Visitor<'de>>(mut self, _len: usize, visitor: V) -> Result<V::Value> {
        de::Deserializer::deserialize_seq(&mut self, visitor)
    }

    fn struct_variant<V: Visitor<'de>>(mut self, fields: &'static [&'static str], visitor: V) -> Result<V::Value> {
        de::Deserializer::deserialize_struct(&mut self, "", fields, visitor)
    }
}

/// A variant that a scalar's text names.
pub(crate) struct UnitAccess<'de, 'r, 's> {
    pub reader: &'s mut Reader<'de, 'r>,
}

impl<'de, 'r, 's> de::EnumAccess<'de> for UnitAccess<'de, 'r, 's> {
    type Error = Error;
    type Variant = Self;

    fn variant_seed<T: DeserializeSeed<'de>>(self, seed: T) -> Result<(T::Value, Self)> {
        Ok((seed.deserialize(&mut *self.reader)?, self))
    }
}

fn no_content<T>(expected: &'static str) -> Result<T> {
    Err(de::Error::invalid_type(Unexpected::UnitVariant, &expected))
}

impl<'de> de::VariantAccess<'de> for UnitAccess<'de, '_, '_> {
    type Error = Error;

    fn unit_variant(self) -> Result<()> {
        Ok(())
    }

    fn newtype_variant_seed<T: DeserializeSeed<'de>>(self, _seed: T) -> Result<T::Value> {
        no_content("newtype variant")
    }

    fn tuple_variant<V: Visitor<'de>>(self, _len: usize, _visitor: V) -> Result<V::Value> {
        no_content("tuple variant")
    }

    fn struct_variant<V: Visitor<'de>>(self, _fields: &'static [&'static str], _visitor: V) -> Result<V::Value> {
        no_content("struct variant")
    }
}

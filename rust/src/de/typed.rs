//! The calls of a type that is read.

use super::access::{MapAccess, SeqAccess, TagAccess, UnitAccess};
use super::reader::{Reader, Variant};
use crate::error::{self, Error, Fault, Result};
use crate::rows::{Kind, Row, Scalar, TagKind};
use serde::de::{self, Deserializer, Unexpected, Visitor};

// An integer of a scalar, if its text is one in the range of a kind.
fn signed(row: &Row) -> Option<i128> {
    match row.word() {
        Scalar::Unsigned(number) => i128::try_from(number).ok(),
        Scalar::Negative(number) => Some(number),
        _ => None,
    }
}

fn unsigned(row: &Row) -> Option<u128> {
    match row.word() {
        Scalar::Unsigned(number) => Some(number),
        _ => None,
    }
}

fn boolean(row: &Row) -> Option<bool> {
    match row.word() {
        Scalar::Bool(truth) => Some(truth),
        _ => None,
    }
}

// Whether a row is the empty plain scalar, which is an empty collection too.
fn is_empty(row: &Row) -> bool {
    row.kind() == Kind::Void || row.is_scalar() && row.is_plain() && row.text_len == 0
}

// Reads a scalar whose text is looked at for a core tag.
macro_rules! read_word {
    ($($call:ident $visit:ident $tag:ident $found:expr;)*) => {$(
        fn $call<V: Visitor<'de>>(self, visitor: V) -> Result<V::Value> {
            let row = self.take()?;
            let found = if row.is_open_to(TagKind::$tag) { $found(row) } else { None };
            match found {
                Some(value) => visitor.$visit(value),
                None if row.kind() == Kind::Alias => self.follow(row, &mut 0)?.$call(visitor),
                None => Err(self.mismatch(row, &visitor)),
            }
            .map_err(|fault| self.placed(row, fault))
        }
    )*};
}

macro_rules! read_as {
    ($($call:ident $other:ident;)*) => {$(
        fn $call<V: Visitor<'de>>(self, visitor: V) -> Result<V::Value> {
            self.$other(visitor)
        }
    )*};
}

impl<'de> Deserializer<'de> for &mut Reader<'de, '_> {
    type Error = Error;

    read_word! {
        deserialize_bool visit_bool Bool boolean;
        deserialize_i64 visit_i64 Int |row| signed(row).and_then(|number| i64::try_from(number).ok());
        deserialize_i128 visit_i128 Int signed;
        deserialize_u64 visit_u64 Int |row| unsigned(row).and_then(|number| u64::try_from(number).ok());
        deserialize_u128 visit_u128 Int unsigned;
        deserialize_f64 visit_f64 Float Row::as_float;
    }

    read_as! {
        deserialize_i8 deserialize_i64;
        deserialize_i16 deserialize_i64;
        deserialize_i32 deserialize_i64;
        deserialize_u8 deserialize_u64;
        deserialize_u16 deserialize_u64;
        deserialize_u32 deserialize_u64;
        deserialize_f32 deserialize_f64;
        deserialize_char deserialize_str;
        deserialize_string deserialize_str;
        deserialize_identifier deserialize_str;
        deserialize_byte_buf deserialize_bytes;
    }

    fn deserialize_any<V: Visitor<'de>>(self, visitor: V) -> Result<V::Value> {
        let is_taken = self.variant.is_some();
        let row = self.take()?;
        let tag = if is_taken { None } else { self.local_tag(row) };
        match (row.kind(), tag) {
            (Kind::Alias, _) => self.follow(row, &mut 0)?.deserialize_any(visitor),
            (_, Some(tag)) => {
                *self.at -= 1;
                visitor.visit_enum(TagAccess { reader: self, variant: Variant { name: None, tag } })
            }
            (Kind::Sequence, None) => self.sequence(row, visitor),
            (Kind::Mapping, None) => self.mapping(row, visitor),
            (Kind::Void, None) => visitor.visit_none(),
            (_, None) => self.scalar(row, visitor),
        }
        .map_err(|fault| self.placed(row, fault))
    }

    fn deserialize_str<V: Visitor<'de>>(self, visitor: V) -> Result<V::Value> {
        let row = self.take()?;
        match row.kind() {
            Kind::Alias => self.follow(row, &mut 0)?.deserialize_str(visitor),
            Kind::Bytes => Err(self.mismatch(row, &visitor)),
            _ if row.is_scalar() => self.text(row, visitor),
            _ => Err(self.mismatch(row, &visitor)),
        }
        .map_err(|fault| self.placed(row, fault))
    }

    fn deserialize_bytes<V: Visitor<'de>>(self, _visitor: V) -> Result<V::Value> {
        Err(error::new(Fault::BytesUnsupported))
    }

    fn deserialize_option<V: Visitor<'de>>(self, visitor: V) -> Result<V::Value> {
        let row = self.peek()?;
        let is_absent = match row.kind() {
            Kind::Alias => {
                *self.at += 1;
                return self.follow(row, &mut 0)?.deserialize_option(visitor);
            }
            Kind::Void => true,
            _ if !row.is_scalar() || !row.is_plain() => false,
            Kind::Misfit if row.tag_kind() == TagKind::Null => return Err(self.misfit(row, "null")),
            Kind::Null => self.variant.is_some() || matches!(row.tag_kind(), TagKind::None | TagKind::Null),
            _ => false,
        };
        if !is_absent {
            return visitor.visit_some(self);
        }
        self.take()?;
        visitor.visit_none()
    }

    fn deserialize_unit<V: Visitor<'de>>(self, visitor: V) -> Result<V::Value> {
        let is_taken = self.variant.is_some();
        let row = self.take()?;
        match row.kind() {
            Kind::Alias => self.follow(row, &mut 0)?.deserialize_unit(visitor),
            Kind::Void => visitor.visit_unit(),
            Kind::Null if row.is_plain() && (is_taken || matches!(row.tag_kind(), TagKind::None | TagKind::Null)) => {
                visitor.visit_unit()
            }
            _ if row.is_scalar() => Err(self.misfit(row, "null")),
            _ => Err(self.mismatch(row, &visitor)),
        }
        .map_err(|fault| self.placed(row, fault))
    }

    fn deserialize_unit_struct<V: Visitor<'de>>(self, _name: &'static str, visitor: V) -> Result<V::Value> {
        self.deserialize_unit(visitor)
    }

    fn deserialize_newtype_struct<V: Visitor<'de>>(self, _name: &'static str, visitor: V) -> Result<V::Value> {
        let row = self.peek()?;
        self.deeper(row, |reader| visitor.visit_newtype_struct(reader))
    }

    fn deserialize_seq<V: Visitor<'de>>(self, visitor: V) -> Result<V::Value> {
        let row = self.take()?;
        match row.kind() {
            Kind::Alias => self.follow(row, &mut 0)?.deserialize_seq(visitor),
            Kind::Sequence => self.sequence(row, visitor),
            _ if is_empty(row) => visitor.visit_seq(SeqAccess { reader: self, len: 0, is_empty: true }),
            _ => Err(self.mismatch(row, &visitor)),
        }
        .map_err(|fault| self.placed(row, fault))
    }

    fn deserialize_tuple<V: Visitor<'de>>(self, _len: usize, visitor: V) -> Result<V::Value> {
        self.deserialize_seq(visitor)
    }

    fn deserialize_tuple_struct<V: Visitor<'de>>(
        self,
        _name: &'static str,
        _len: usize,
        visitor: V,
    ) -> Result<V::Value> {
        self.deserialize_seq(visitor)
    }

    fn deserialize_map<V: Visitor<'de>>(self, visitor: V) -> Result<V::Value> {
        let row = self.take()?;
        match row.kind() {
            Kind::Alias => self.follow(row, &mut 0)?.deserialize_map(visitor),
            Kind::Mapping => self.mapping(row, visitor),
            _ if is_empty(row) => visitor.visit_map(MapAccess { reader: self, len: 0, is_empty: true, key: None }),
            _ => Err(self.mismatch(row, &visitor)),
        }
        .map_err(|fault| self.placed(row, fault))
    }

    fn deserialize_struct<V: Visitor<'de>>(
        self,
        _name: &'static str,
        _fields: &'static [&'static str],
        visitor: V,
    ) -> Result<V::Value> {
        self.deserialize_map(visitor)
    }

    fn deserialize_enum<V: Visitor<'de>>(
        self,
        name: &'static str,
        variants: &'static [&'static str],
        visitor: V,
    ) -> Result<V::Value> {
        let row = self.peek()?;
        if let Some(variant) = self.variant {
            return if row.is_scalar() && row.text_len != 0 {
                visitor.visit_enum(UnitAccess { reader: self })
            } else {
                Err(nested(variant))
            }
            .map_err(|fault| self.placed(row, fault));
        }
        if let Some(tag) = self.local_tag(row) {
            return visitor.visit_enum(TagAccess { reader: self, variant: Variant { name: Some(name), tag } });
        }
        match row.kind() {
            Kind::Alias => {
                *self.at += 1;
                self.follow(row, &mut 0)?.deserialize_enum(name, variants, visitor)
            }
            Kind::Void => Err(error::new(Fault::EndOfStream)),
            Kind::Mapping => Err(de::Error::invalid_type(Unexpected::Map, &"a YAML tag starting with '!'")),
            Kind::Sequence => Err(de::Error::invalid_type(Unexpected::Seq, &"a YAML tag starting with '!'")),
            _ => visitor.visit_enum(UnitAccess { reader: self }),
        }
        .map_err(|fault| self.placed(row, fault))
    }

    fn deserialize_ignored_any<V: Visitor<'de>>(self, visitor: V) -> Result<V::Value> {
        self.skip()?;
        visitor.visit_unit()
    }
}

#[cold]
fn nested(variant: Variant) -> Error {
    let Variant { name, tag } = variant;
    de::Error::custom(match name {
        Some(name) => format!("deserializing nested enum in {name}::{tag} from YAML is not supported yet"),
        None => format!("deserializing nested enum in !{tag} from YAML is not supported yet"),
    })
}

//! A type that keeps each call that a deserializer makes.

use serde::de::{Deserialize, Deserializer, EnumAccess, Error, MapAccess, SeqAccess, VariantAccess, Visitor};
use serde::ser::{Serialize, SerializeMap, Serializer};
use std::fmt;

/// What was visited.
#[derive(Debug, Clone, PartialEq)]
pub enum Seen {
    Unit,
    None,
    Bool(bool),
    I64(i64),
    U64(u64),
    I128(i128),
    U128(u128),
    F64(u64),
    Str(String),
    Borrowed(String),
    Seq(Vec<Seen>),
    Map(Vec<(Seen, Seen)>),
    Enum(String, Box<Seen>),
}

struct SeenVisitor;

impl<'de> Visitor<'de> for SeenVisitor {
    type Value = Seen;

    fn expecting(&self, f: &mut fmt::Formatter) -> fmt::Result {
        f.write_str("whatever stands here")
    }
    fn visit_unit<E>(self) -> Result<Seen, E> {
        Ok(Seen::Unit)
    }
    fn visit_none<E>(self) -> Result<Seen, E> {
        Ok(Seen::None)
    }
    fn visit_bool<E>(self, v: bool) -> Result<Seen, E> {
        Ok(Seen::Bool(v))
    }
    fn visit_i64<E>(self, v: i64) -> Result<Seen, E> {
        Ok(Seen::I64(v))
    }
    fn visit_u64<E>(self, v: u64) -> Result<Seen, E> {
        Ok(Seen::U64(v))
    }
    fn visit_i128<E>(self, v: i128) -> Result<Seen, E> {
        Ok(Seen::I128(v))
    }
    fn visit_u128<E>(self, v: u128) -> Result<Seen, E> {
        Ok(Seen::U128(v))
    }
    fn visit_f64<E>(self, v: f64) -> Result<Seen, E> {
        Ok(Seen::F64(v.to_bits()))
    }
    fn visit_str<E>(self, v: &str) -> Result<Seen, E> {
        Ok(Seen::Str(v.to_owned()))
    }
    fn visit_borrowed_str<E>(self, v: &'de str) -> Result<Seen, E> {
        Ok(Seen::Borrowed(v.to_owned()))
    }
    fn visit_seq<A: SeqAccess<'de>>(self, mut data: A) -> Result<Seen, A::Error> {
        let mut all = Vec::new();
        while let Some(one) = data.next_element()? {
            all.push(one);
        }
        Ok(Seen::Seq(all))
    }
    fn visit_map<A: MapAccess<'de>>(self, mut data: A) -> Result<Seen, A::Error> {
        let mut all = Vec::new();
        while let Some(one) = data.next_entry()? {
            all.push(one);
        }
        Ok(Seen::Map(all))
    }
    fn visit_enum<A: EnumAccess<'de>>(self, data: A) -> Result<Seen, A::Error> {
        let (name, content) = data.variant::<String>()?;
        if name == "refuse" {
            return Err(A::Error::custom("refused"));
        }
        Ok(Seen::Enum(name, Box::new(content.newtype_variant()?)))
    }
}

impl<'de> Deserialize<'de> for Seen {
    fn deserialize<D: Deserializer<'de>>(deserializer: D) -> Result<Seen, D::Error> {
        deserializer.deserialize_any(SeenVisitor)
    }
}

impl Serialize for Seen {
    fn serialize<S: Serializer>(&self, s: S) -> Result<S::Ok, S::Error> {
        match self {
            Seen::Unit => s.serialize_unit(),
            Seen::None => s.serialize_none(),
            Seen::Bool(v) => s.serialize_bool(*v),
            Seen::I64(v) => s.serialize_i64(*v),
            Seen::U64(v) => s.serialize_u64(*v),
            Seen::I128(v) => s.serialize_i128(*v),
            Seen::U128(v) => s.serialize_u128(*v),
            Seen::F64(v) => s.serialize_f64(f64::from_bits(*v)),
            Seen::Str(v) | Seen::Borrowed(v) => s.serialize_str(v),
            Seen::Seq(v) => v.serialize(s),
            Seen::Map(v) => {
                // without the length, by which the original takes a map of one pair for a tag
                let mut map = s.serialize_map(None)?;
                for (key, value) in v {
                    map.serialize_entry(key, value)?;
                }
                map.end()
            }
            Seen::Enum(_, v) => v.serialize(s),
        }
    }
}

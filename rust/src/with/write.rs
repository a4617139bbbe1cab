//! Writing of variants as mappings.

use super::{Reach, Singleton};
use crate::value::{self, Mapping, Sequence, Value};
use serde::ser::{
    self, Serialize, SerializeMap, SerializeSeq, SerializeStruct, SerializeStructVariant, SerializeTuple,
    SerializeTupleStruct, SerializeTupleVariant, Serializer,
};
use std::fmt::Display;

impl<T: ?Sized + Serialize> Serialize for Singleton<&T> {
    fn serialize<S: Serializer>(&self, serializer: S) -> Result<S::Ok, S::Error> {
        match self.reach {
            Reach::Nowhere => self.inner.serialize(serializer),
            reach => self.inner.serialize(Singleton { inner: serializer, reach }),
        }
    }
}

// The parts of a variant with content.
pub(super) enum Variant<M, D> {
    /// They are collected for the value of a map of one pair.
    Map { map: M, value: Value },
    /// They go on as they come.
    Plain(D),
}

macro_rules! scalars {
    ($($call:ident $kind:ty;)*) => {$(
        fn $call(self, value: $kind) -> Result<S::Ok, S::Error> {
            self.inner.$call(value)
        }
    )*};
}

type Name = &'static str;

impl<S: Serializer> Serializer for Singleton<S> {
    type Ok = S::Ok;
    type Error = S::Error;
    type SerializeSeq = Singleton<S::SerializeSeq>;
    type SerializeTuple = Singleton<S::SerializeTuple>;
    type SerializeTupleStruct = Singleton<S::SerializeTupleStruct>;
    type SerializeTupleVariant = Parts<S::SerializeMap, S::SerializeTupleVariant>;
    type SerializeMap = Singleton<S::SerializeMap>;
    type SerializeStruct = Singleton<S::SerializeStruct>;
    type SerializeStructVariant = Parts<S::SerializeMap, S::SerializeStructVariant>;

    scalars! {
        serialize_bool bool;
        serialize_i8 i8;
        serialize_i16 i16;
        serialize_i32 i32;
        serialize_i64 i64;
        serialize_i128 i128;
        serialize_u8 u8;
        serialize_u16 u16;
        serialize_u32 u32;
        serialize_u64 u64;
        serialize_u128 u128;
        serialize_f32 f32;
        serialize_f64 f64;
        serialize_char char;
        serialize_str &str;
        serialize_bytes &[u8];
        serialize_unit_struct Name;
    }

    fn serialize_unit(self) -> Result<S::Ok, S::Error> {
        self.inner.serialize_unit()
    }

    fn serialize_none(self) -> Result<S::Ok, S::Error> {
        self.inner.serialize_none()
    }

    fn collect_str<T: ?Sized + Display>(self, value: &T) -> Result<S::Ok, S::Error> {
        self.inner.collect_str(value)
    }

    fn serialize_unit_variant(self, name: Name, index: u32, variant: Name) -> Result<S::Ok, S::Error> {
        self.inner.serialize_unit_variant(name, index, variant)
    }

    fn serialize_some<T: ?Sized + Serialize>(self, value: &T) -> Result<S::Ok, S::Error> {
        self.inner.serialize_some(&Singleton { inner: value, reach: self.reach.held() })
    }

    fn serialize_newtype_struct<T: ?Sized + Serialize>(self, name: Name, value: &T) -> Result<S::Ok, S::Error> {
        self.inner.serialize_newtype_struct(name, &Self::part(self.reach, value))
    }

    fn serialize_newtype_variant<T: ?Sized + Serialize>(
        self,
        name: Name,
        index: u32,
        variant: Name,
        value: &T,
    ) -> Result<S::Ok, S::Error> {
        let value = Self::part(self.reach, value);
        if !self.reach.is_on() {
            return self.inner.serialize_newtype_variant(name, index, variant, &value);
        }
        let mut map = self.inner.serialize_map(Some(1))?;
        map.serialize_entry(variant, &value)?;
        map.end()
    }

    fn serialize_seq(self, len: Option<usize>) -> Result<Self::SerializeSeq, S::Error> {
        Ok(Self::part(self.reach, self.inner.serialize_seq(len)?))
    }

    fn serialize_tuple(self, len: usize) -> Result<Self::SerializeTuple, S::Error> {
        Ok(Self::part(self.reach, self.inner.serialize_tuple(len)?))
    }

    fn serialize_tuple_struct(self, name: Name, len: usize) -> Result<Self::SerializeTupleStruct, S::Error> {
        Ok(Self::part(self.reach, self.inner.serialize_tuple_struct(name, len)?))
    }

    fn serialize_map(self, len: Option<usize>) -> Result<Self::SerializeMap, S::Error> {
        Ok(Self::part(self.reach, self.inner.serialize_map(len)?))
    }

    fn serialize_struct(self, name: Name, len: usize) -> Result<Self::SerializeStruct, S::Error> {
        Ok(Self::part(self.reach, self.inner.serialize_struct(name, len)?))
    }

    fn serialize_tuple_variant(
        self,
        name: Name,
        index: u32,
        variant: Name,
        len: usize,
    ) -> Result<Self::SerializeTupleVariant, S::Error> {
        let reach = self.reach.part();
        if !self.reach.is_on() {
            let plain = self.inner.serialize_tuple_variant(name, index, variant, len)?;
            return Ok(Parts { variant: Variant::Plain(plain), reach });
        }
        let mut map = self.inner.serialize_map(Some(1))?;
        map.serialize_key(variant)?;
        Ok(Parts { variant: Variant::Map { map, value: Value::Sequence(Sequence::new()) }, reach })
    }

    fn serialize_struct_variant(
        self,
        name: Name,
        index: u32,
        variant: Name,
        len: usize,
    ) -> Result<Self::SerializeStructVariant, S::Error> {
        let reach = self.reach.part();
        if !self.reach.is_on() {
            let plain = self.inner.serialize_struct_variant(name, index, variant, len)?;
            return Ok(Parts { variant: Variant::Plain(plain), reach });
        }
        let mut map = self.inner.serialize_map(Some(1))?;
        map.serialize_key(variant)?;
        Ok(Parts { variant: Variant::Map { map, value: Value::Mapping(Mapping::new()) }, reach })
    }
}

// The parts of a variant, which are wrapped as they come.
pub(super) struct Parts<M, D> {
    variant: Variant<M, D>,
    reach: Reach,
}

impl<M: SerializeMap, D> Parts<M, D> {
    fn made<T: ?Sized + Serialize>(reach: Reach, part: &T) -> Result<Value, M::Error> {
        Singleton { inner: part, reach }.serialize(value::Serializer).map_err(ser::Error::custom)
    }
}

macro_rules! elements {
    ($($name:ident $call:ident)*) => {$(
        impl<A: $name> $name for Singleton<A> {
            type Ok = A::Ok;
            type Error = A::Error;

            fn $call<T: ?Sized + Serialize>(&mut self, value: &T) -> Result<(), A::Error> {
                self.inner.$call(&Singleton { inner: value, reach: self.reach })
            }

            fn end(self) -> Result<A::Ok, A::Error> {
                self.inner.end()
            }
        }
    )*};
}

elements! {
    SerializeSeq serialize_element
    SerializeTuple serialize_element
    SerializeTupleStruct serialize_field
}

impl<A: SerializeMap> SerializeMap for Singleton<A> {
    type Ok = A::Ok;
    type Error = A::Error;

    fn serialize_key<T: ?Sized + Serialize>(&mut self, key: &T) -> Result<(), A::Error> {
        self.inner.serialize_key(&Singleton { inner: key, reach: self.reach })
    }

    fn serialize_value<T: ?Sized + Serialize>(&mut self, value: &T) -> Result<(), A::Error> {
        self.inner.serialize_value(&Singleton { inner: value, reach: self.reach })
    }

    fn serialize_entry<K: ?Sized + Serialize, V: ?Sized + Serialize>(
        &mut self,
        key: &K,
        value: &V,
    ) -> Result<(), A::Error> {
        let reach = self.reach;
        self.inner.serialize_entry(&Singleton { inner: key, reach }, &Singleton { inner: value, reach })
    }

    fn end(self) -> Result<A::Ok, A::Error> {
        self.inner.end()
    }
}

impl<A: SerializeStruct> SerializeStruct for Singleton<A> {
    type Ok = A::Ok;
    type Error = A::Error;

    fn serialize_field<T: ?Sized + Serialize>(&mut self, key: Name, value: &T) -> Result<(), A::Error> {
        self.inner.serialize_field(key, &Singleton { inner: value, reach: self.reach })
    }

    fn end(self) -> Result<A::Ok, A::Error> {
        self.inner.end()
    }
}

impl<M, D> SerializeTupleVariant for Parts<M, D>
where
    M: SerializeMap,
    D: SerializeTupleVariant<Ok = M::Ok, Error = M::Error>,
{
    type Ok = M::Ok;
    type Error = M::Error;

    fn serialize_field<T: ?Sized + Serialize>(&mut self, part: &T) -> Result<(), M::Error> {
        let reach = self.reach;
        match &mut self.variant {
            Variant::Plain(plain) => plain.serialize_field(&Singleton { inner: part, reach })?,
            Variant::Map { value: Value::Sequence(elements), .. } => elements.push(Self::made(reach, part)?),
            Variant::Map { .. } => {}
        }
        Ok(())
    }

    fn end(self) -> Result<M::Ok, M::Error> {
        match self.variant {
            Variant::Plain(plain) => plain.end(),
            Variant::Map { mut map, value } => {
                map.serialize_value(&value)?;
                map.end()
            }
        }
    }
}

impl<M, D> SerializeStructVariant for Parts<M, D>
where
    M: SerializeMap,
    D: SerializeStructVariant<Ok = M::Ok, Error = M::Error>,
{
    type Ok = M::Ok;
    type Error = M::Error;

    fn serialize_field<T: ?Sized + Serialize>(&mut self, key: Name, part: &T) -> Result<(), M::Error> {
        let reach = self.reach;
        match &mut self.variant {
            Variant::Plain(plain) => plain.serialize_field(key, &Singleton { inner: part, reach })?,
            Variant::Map { value: Value::Mapping(pairs), .. } => {
                pairs.insert(key.into(), Self::made(reach, part)?);
            }
            Variant::Map { .. } => {}
        }
        Ok(())
    }

    fn end(self) -> Result<M::Ok, M::Error> {
        match self.variant {
            Variant::Plain(plain) => plain.end(),
            Variant::Map { mut map, value } => {
                map.serialize_value(&value)?;
                map.end()
            }
        }
    }
}

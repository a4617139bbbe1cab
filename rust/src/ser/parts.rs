//! The parts of what is written.

use super::{Serializer, State};
use crate::error::{Error, Result};
use crate::rows::Kind;
use serde::ser::{self, Serialize};
use std::io;

macro_rules! elements {
    ($($name:ident $call:ident)*) => {$(
        impl<W: io::Write> ser::$name for &mut Serializer<W> {
            type Ok = ();
            type Error = Error;

            fn $call<T: ?Sized + Serialize>(&mut self, value: &T) -> Result<()> {
                value.serialize(&mut **self)
            }

            fn end(self) -> Result<()> {
                Serializer::end(self, Kind::SequenceEnd)
            }
        }
    )*};
}

elements! {
    SerializeSeq serialize_element
    SerializeTuple serialize_element
    SerializeTupleStruct serialize_field
    SerializeTupleVariant serialize_field
}

macro_rules! fields {
    ($($name:ident)*) => {$(
        impl<W: io::Write> ser::$name for &mut Serializer<W> {
            type Ok = ();
            type Error = Error;

            fn serialize_field<T: ?Sized + Serialize>(&mut self, key: &'static str, value: &T) -> Result<()> {
                ser::Serializer::serialize_str(&mut **self, key)?;
                value.serialize(&mut **self)
            }

            fn end(self) -> Result<()> {
                Serializer::end(self, Kind::MappingEnd)
            }
        }
    )*};
}

fields!(SerializeStruct SerializeStructVariant);

impl<W: io::Write> ser::SerializeMap for &mut Serializer<W> {
    type Ok = ();
    type Error = Error;

    fn serialize_key<T: ?Sized + Serialize>(&mut self, key: &T) -> Result<()> {
        if let State::CheckForTag | State::CheckForDuplicateTag = self.state {
            self.state = State::Nothing;
        }
        key.serialize(&mut **self)
    }

    fn serialize_value<T: ?Sized + Serialize>(&mut self, value: &T) -> Result<()> {
        value.serialize(&mut **self)
    }

    fn serialize_entry<K: ?Sized + Serialize, V: ?Sized + Serialize>(&mut self, key: &K, value: &V) -> Result<()> {
        key.serialize(&mut **self)?;
        let is_tagged = matches!(self.state, State::FoundTag(_));
        value.serialize(&mut **self)?;
        if is_tagged {
            self.state = State::AlreadyTagged;
        }
        Ok(())
    }

    fn end(self) -> Result<()> {
        if let State::AlreadyTagged = self.state {
            self.state = State::Nothing;
            return Ok(());
        }
        self.state = State::Nothing;
        Serializer::end(self, Kind::MappingEnd)
    }
}

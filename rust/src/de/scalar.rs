//! Visits of scalars, and the faults of what was found.

use super::reader::Reader;
use crate::error::{self, Error, Fault, Result};
use crate::loaded::Text;
use crate::rows::{Kind, Row, Scalar};
use serde::de::{self, Expected, Unexpected, Visitor};
use std::fmt;

impl<'de> Reader<'de, '_> {
    /// Visits a scalar's text.
    pub fn text<V: Visitor<'de>>(&self, row: &Row, visitor: V) -> Result<V::Value> {
        match self.document.loaded().text(row) {
            Text::Lent(text) => visitor.visit_borrowed_str(text),
            Text::Kept(text) => visitor.visit_str(text),
        }
    }

    /// Visits a scalar as what it is as a value of any kind.
    pub fn scalar<V: Visitor<'de>>(&self, row: &Row, visitor: V) -> Result<V::Value> {
        match row.scalar() {
            Scalar::Null => visitor.visit_unit(),
            Scalar::Bool(truth) => visitor.visit_bool(truth),
            Scalar::Unsigned(number) => match u64::try_from(number) {
                Ok(number) => visitor.visit_u64(number),
                Err(_) => visitor.visit_u128(number),
            },
            Scalar::Negative(number) => match i64::try_from(number) {
                Ok(number) => visitor.visit_i64(number),
                Err(_) => visitor.visit_i128(number),
            },
            Scalar::Float(number) => visitor.visit_f64(number),
            Scalar::String => self.text(row, visitor),
            Scalar::Bytes => Err(de::Error::invalid_type(Unexpected::Bytes(&[]), &visitor)),
            Scalar::Misfit(expected) => Err(self.misfit(row, expected)),
        }
    }

    /// That a scalar is not what its tag says.
    #[cold]
    pub fn misfit(&self, row: &Row, expected: &'static str) -> Error {
        de::Error::invalid_value(Unexpected::Str(self.document.loaded().text(row).as_str()), &expected)
    }

    /// That another thing was expected than what stands here.
    #[cold]
    pub fn mismatch(&self, row: &Row, expected: &dyn Expected) -> Error {
        match row.kind() {
            Kind::Sequence => de::Error::invalid_type(Unexpected::Seq, expected),
            Kind::Mapping => de::Error::invalid_type(Unexpected::Map, expected),
            _ if row.is_scalar() => match self.scalar(row, Refusing(expected)) {
                Err(fault) => fault,
                Ok(never) => match never {},
            },
            _ => error::new(Fault::EndOfStream),
        }
    }
}

// A visitor that refuses each visit, by which serde words what was found.
struct Refusing<'a>(&'a dyn Expected);

enum Never {}

impl Visitor<'_> for Refusing<'_> {
    type Value = Never;

    fn expecting(&self, f: &mut fmt::Formatter) -> fmt::Result {
        self.0.fmt(f)
    }
}

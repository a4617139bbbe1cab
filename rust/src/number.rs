//! Numbers of a [`Value`](crate::Value).

use crate::error::{self, Error, Fault};
use crate::loaded;
use crate::rows::Scalar;
use serde::de::{self, Unexpected, Visitor};
use serde::{forward_to_deserialize_any, Deserialize, Deserializer, Serialize, Serializer};
use std::cmp::Ordering;
use std::fmt::{self, Debug, Display};
use std::hash::{Hash, Hasher};
use std::str::FromStr;

/// A number: an integer of 64 bits, or a float.
#[derive(Clone, PartialEq, Eq, PartialOrd, Hash)]
pub struct Number {
    held: Held,
}

#[derive(Clone, Copy)]
enum Held {
    Unsigned(u64),
    /// Below zero.
    Negative(i64),
    Float(f64),
}

impl Number {
    /// Whether it fits an `i64`.
    pub fn is_i64(&self) -> bool {
        self.as_i64().is_some()
    }

    /// Whether it is an integer that is not below zero.
    pub fn is_u64(&self) -> bool {
        matches!(self.held, Held::Unsigned(_))
    }

    /// Whether it is a float.
    pub fn is_f64(&self) -> bool {
        matches!(self.held, Held::Float(_))
    }

    /// It as an `i64`, if it is such an integer.
    pub fn as_i64(&self) -> Option<i64> {
        match self.held {
            Held::Unsigned(number) => i64::try_from(number).ok(),
            Held::Negative(number) => Some(number),
            Held::Float(_) => None,
        }
    }

    /// It as a `u64`, if it is such an integer.
    pub fn as_u64(&self) -> Option<u64> {
        match self.held {
            Held::Unsigned(number) => Some(number),
            _ => None,
        }
    }

    /// It as an `f64`, rounded where it is a great integer. Always `Some`.
    pub fn as_f64(&self) -> Option<f64> {
        Some(match self.held {
            Held::Unsigned(number) => number as f64,
            Held::Negative(number) => number as f64,
            Held::Float(number) => number,
        })
    }

    /// Whether it is `.nan`.
    pub fn is_nan(&self) -> bool {
        matches!(self.held, Held::Float(number) if number.is_nan())
    }

    /// Whether it is `.inf` or `-.inf`.
    pub fn is_infinite(&self) -> bool {
        matches!(self.held, Held::Float(number) if number.is_infinite())
    }

    /// Whether it is neither.
    pub fn is_finite(&self) -> bool {
        !matches!(self.held, Held::Float(number) if !number.is_finite())
    }

    /// What was found, for a fault.
    #[cold]
    pub(crate) fn unexpected(&self) -> Unexpected<'static> {
        match self.held {
            Held::Unsigned(number) => Unexpected::Unsigned(number),
            Held::Negative(number) => Unexpected::Signed(number),
            Held::Float(number) => Unexpected::Float(number),
        }
    }

    fn visit<'de, V: Visitor<'de>>(&self, visitor: V) -> Result<V::Value, Error> {
        match self.held {
            Held::Unsigned(number) => visitor.visit_u64(number),
            Held::Negative(number) => visitor.visit_i64(number),
            Held::Float(number) => visitor.visit_f64(number),
        }
    }
}

// Every NaN is equal to every other, so that numbers can be keys.
impl PartialEq for Held {
    fn eq(&self, other: &Held) -> bool {
        match (*self, *other) {
            (Held::Unsigned(a), Held::Unsigned(b)) => a == b,
            (Held::Negative(a), Held::Negative(b)) => a == b,
            (Held::Float(a), Held::Float(b)) => a == b || (a.is_nan() && b.is_nan()),
            _ => false,
        }
    }
}

impl Eq for Held {}

// Integers by size, and floats behind them by size, with NaN last.
impl PartialOrd for Held {
    fn partial_cmp(&self, other: &Held) -> Option<Ordering> {
        Some(match (*self, *other) {
            (Held::Unsigned(a), Held::Unsigned(b)) => a.cmp(&b),
            (Held::Negative(a), Held::Negative(b)) => a.cmp(&b),
            (Held::Unsigned(_), Held::Negative(_)) => Ordering::Greater,
            (Held::Negative(_), Held::Unsigned(_)) => Ordering::Less,
            (Held::Float(a), Held::Float(b)) => a.partial_cmp(&b).unwrap_or_else(|| a.is_nan().cmp(&b.is_nan())),
            (Held::Float(_), _) => Ordering::Greater,
            (_, Held::Float(_)) => Ordering::Less,
        })
    }
}

impl Hash for Held {
    fn hash<H: Hasher>(&self, state: &mut H) {
        match self {
            // 0.0 and -0.0 are equal, and so are all NaN
            Held::Float(_) => 3u8.hash(state),
            Held::Unsigned(number) => number.hash(state),
            Held::Negative(number) => number.hash(state),
        }
    }
}

macro_rules! from_unsigned {
    ($($kind:ty)*) => {$(
        impl From<$kind> for Number {
            fn from(number: $kind) -> Number {
                Number { held: Held::Unsigned(number as u64) }
            }
        }
    )*};
}

macro_rules! from_signed {
    ($($kind:ty)*) => {$(
        impl From<$kind> for Number {
            fn from(number: $kind) -> Number {
                match u64::try_from(number) {
                    Ok(number) => Number { held: Held::Unsigned(number) },
                    Err(_) => Number { held: Held::Negative(number as i64) },
                }
            }
        }
    )*};
}

from_unsigned!(u8 u16 u32 u64 usize);
from_signed!(i8 i16 i32 i64 isize);

impl From<f32> for Number {
    fn from(number: f32) -> Number {
        Number::from(f64::from(number))
    }
}

impl From<f64> for Number {
    fn from(number: f64) -> Number {
        let number = if number.is_nan() { f64::NAN.copysign(1.0) } else { number };
        Number { held: Held::Float(number) }
    }
}

impl Display for Number {
    fn fmt(&self, f: &mut fmt::Formatter) -> fmt::Result {
        match self.held {
            Held::Unsigned(number) => Display::fmt(&number, f),
            Held::Negative(number) => Display::fmt(&number, f),
            Held::Float(number) => match loaded::float_text(number) {
                Ok(text) => f.write_str(text.trim_end()),
                Err(_) => Debug::fmt(&number, f),
            },
        }
    }
}

impl Debug for Number {
    fn fmt(&self, f: &mut fmt::Formatter) -> fmt::Result {
        write!(f, "Number({self})")
    }
}

impl FromStr for Number {
    type Err = Error;

    /// The number that the text is as a plain scalar.
    fn from_str(text: &str) -> Result<Number, Error> {
        match loaded::plain_scalar(text)? {
            Some(Scalar::Unsigned(number)) => match u64::try_from(number) {
                Ok(number) => Ok(number.into()),
                Err(_) => NumberVisitor.visit_u128(number),
            },
            Some(Scalar::Negative(number)) => match i64::try_from(number) {
                Ok(number) => Ok(number.into()),
                Err(_) => NumberVisitor.visit_i128(number),
            },
            Some(Scalar::Float(number)) => Ok(number.into()),
            _ => Err(error::new(Fault::FailedToParseNumber)),
        }
    }
}

impl Serialize for Number {
    fn serialize<S: Serializer>(&self, serializer: S) -> Result<S::Ok, S::Error> {
        match self.held {
            Held::Unsigned(number) => serializer.serialize_u64(number),
            Held::Negative(number) => serializer.serialize_i64(number),
            Held::Float(number) => serializer.serialize_f64(number),
        }
    }
}

struct NumberVisitor;

impl Visitor<'_> for NumberVisitor {
    type Value = Number;

    fn expecting(&self, f: &mut fmt::Formatter) -> fmt::Result {
        f.write_str("a number")
    }

    fn visit_i64<E: de::Error>(self, number: i64) -> Result<Number, E> {
        Ok(number.into())
    }

    fn visit_u64<E: de::Error>(self, number: u64) -> Result<Number, E> {
        Ok(number.into())
    }

    fn visit_f64<E: de::Error>(self, number: f64) -> Result<Number, E> {
        Ok(number.into())
    }
}

impl<'de> Deserialize<'de> for Number {
    fn deserialize<D: Deserializer<'de>>(deserializer: D) -> Result<Number, D::Error> {
        deserializer.deserialize_any(NumberVisitor)
    }
}

macro_rules! number_deserializer {
    ($($holder:ty)*) => {$(
        impl<'de> Deserializer<'de> for $holder {
            type Error = Error;

            fn deserialize_any<V: Visitor<'de>>(self, visitor: V) -> Result<V::Value, Error> {
                self.visit(visitor)
            }

            forward_to_deserialize_any! {
                bool i8 i16 i32 i64 i128 u8 u16 u32 u64 u128 f32 f64 char str string bytes byte_buf option unit
                unit_struct newtype_struct seq tuple tuple_struct map struct enum identifier ignored_any
            }
        }
    )*};
}

number_deserializer!(Number & Number);

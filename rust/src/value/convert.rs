//! Values of types, and types of values.

use super::{Serializer, Value};
use crate::error::Error;
use serde::de::DeserializeOwned;
use serde::ser::Serialize;

/// The value that a type is written as.
///
/// # Errors
///
/// The type refuses.
pub fn to_value<T>(value: T) -> Result<Value, Error>
where
    T: Serialize,
{
    value.serialize(Serializer)
}

/// The type that a value is read as.
///
/// # Errors
///
/// The value holds another thing than `T`.
pub fn from_value<T>(value: Value) -> Result<T, Error>
where
    T: DeserializeOwned,
{
    T::deserialize(value)
}

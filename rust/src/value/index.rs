//! How a part of a value is found.

use super::{Mapping, Value};
use crate::mapping::Entry;
use std::ops;

/// What finds a part of a [`Value`]: a place in a sequence, or a key of a mapping, which is a `str`, a `String` or a
/// `Value`. No type of yours can be one.
pub trait Index: private::Sealed {
    #[doc(hidden)]
    fn index_into<'v>(&self, value: &'v Value) -> Option<&'v Value>;
    #[doc(hidden)]
    fn index_into_mut<'v>(&self, value: &'v mut Value) -> Option<&'v mut Value>;
    #[doc(hidden)]
    fn index_or_insert<'v>(&self, value: &'v mut Value) -> &'v mut Value;
}

mod private {
    pub trait Sealed {}
    impl Sealed for usize {}
    impl Sealed for str {}
    impl Sealed for String {}
    impl Sealed for crate::Value {}
    impl<T: ?Sized + Sealed> Sealed for &T {}
}

impl Index for usize {
    fn index_into<'v>(&self, value: &'v Value) -> Option<&'v Value> {
        match value.untag_ref() {
            Value::Sequence(sequence) => sequence.get(*self),
            Value::Mapping(mapping) => mapping.get(Value::Number((*self).into())),
            _ => None,
        }
    }

    fn index_into_mut<'v>(&self, value: &'v mut Value) -> Option<&'v mut Value> {
        match value.untag_mut() {
            Value::Sequence(sequence) => sequence.get_mut(*self),
            Value::Mapping(mapping) => mapping.get_mut(Value::Number((*self).into())),
            _ => None,
        }
    }

    #[track_caller]
    fn index_or_insert<'v>(&self, value: &'v mut Value) -> &'v mut Value {
        match value.untag_mut() {
            Value::Sequence(sequence) => {
                let len = sequence.len();
                sequence.get_mut(*self).unwrap_or_else(|| {
                    panic!("cannot access index {self} of YAML sequence of length {len}");
                })
            }
            Value::Mapping(mapping) => mapping.entry(Value::Number((*self).into())).or_insert(Value::Null),
            other => panic!("cannot access index {self} of YAML {}", kind_name(other)),
        }
    }
}

fn key_into(mapping: &mut Mapping, key: Value) -> &mut Value {
    match mapping.entry(key) {
        Entry::Occupied(entry) => entry.into_mut(),
        Entry::Vacant(entry) => entry.insert(Value::Null),
    }
}

impl Index for Value {
    fn index_into<'v>(&self, value: &'v Value) -> Option<&'v Value> {
        value.as_mapping()?.get(self)
    }

    fn index_into_mut<'v>(&self, value: &'v mut Value) -> Option<&'v mut Value> {
        value.as_mapping_mut()?.get_mut(self)
    }

    #[track_caller]
    fn index_or_insert<'v>(&self, value: &'v mut Value) -> &'v mut Value {
        match made_mapping(value) {
            Ok(mapping) => key_into(mapping, self.clone()),
            Err(name) => panic!("cannot access key {self:?} in YAML {name}"),
        }
    }
}

impl Index for str {
    fn index_into<'v>(&self, value: &'v Value) -> Option<&'v Value> {
        value.as_mapping()?.get(self)
    }

    fn index_into_mut<'v>(&self, value: &'v mut Value) -> Option<&'v mut Value> {
        value.as_mapping_mut()?.get_mut(self)
    }

    #[track_caller]
    fn index_or_insert<'v>(&self, value: &'v mut Value) -> &'v mut Value {
        match made_mapping(value) {
            Ok(mapping) => key_into(mapping, self.into()),
            Err(name) => panic!("cannot access key {self:?} in YAML {name}"),
        }
    }
}

impl Index for String {
    fn index_into<'v>(&self, value: &'v Value) -> Option<&'v Value> {
        self.as_str().index_into(value)
    }

    fn index_into_mut<'v>(&self, value: &'v mut Value) -> Option<&'v mut Value> {
        self.as_str().index_into_mut(value)
    }

    #[track_caller]
    fn index_or_insert<'v>(&self, value: &'v mut Value) -> &'v mut Value {
        self.as_str().index_or_insert(value)
    }
}

impl<T: ?Sized + Index> Index for &T {
    fn index_into<'v>(&self, value: &'v Value) -> Option<&'v Value> {
        (**self).index_into(value)
    }

    fn index_into_mut<'v>(&self, value: &'v mut Value) -> Option<&'v mut Value> {
        (**self).index_into_mut(value)
    }

    #[track_caller]
    fn index_or_insert<'v>(&self, value: &'v mut Value) -> &'v mut Value {
        (**self).index_or_insert(value)
    }
}

// The mapping that a value is, or that null becomes; else the name of its kind.
fn made_mapping(value: &mut Value) -> Result<&mut Mapping, &'static str> {
    let value = value.untag_mut();
    if value.is_null() {
        *value = Value::Mapping(Mapping::new());
    }
    match value {
        Value::Mapping(mapping) => Ok(mapping),
        other => Err(kind_name(other)),
    }
}

fn kind_name(value: &Value) -> &'static str {
    match value {
        Value::Null => "null",
        Value::Bool(_) => "boolean",
        Value::Number(_) => "number",
        Value::String(_) => "string",
        Value::Sequence(_) => "sequence",
        Value::Mapping(_) => "mapping",
        Value::Tagged(_) => "tagged value",
    }
}

impl<I: Index> ops::Index<I> for Value {
    type Output = Value;

    /// The part, or null where there is none.
    fn index(&self, index: I) -> &Value {
        const NULL: Value = Value::Null;
        index.index_into(self).unwrap_or(&NULL)
    }
}

impl<I: Index> ops::IndexMut<I> for Value {
    /// The part. Under a key that is not there, null is put first; so it is in place of a null that is looked into.
    ///
    /// # Panics
    ///
    /// There is no such place in a sequence, or what is looked into has no parts.
    #[track_caller]
    fn index_mut(&mut self, index: I) -> &mut Value {
        index.index_or_insert(self)
    }
}

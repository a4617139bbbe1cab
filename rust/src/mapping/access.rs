//! How a pair of a mapping is found.

use super::Mapping;
use crate::value::Value;
use indexmap::{map, Equivalent};
use std::hash::{Hash, Hasher};
use std::{mem, ops};

/// What finds a pair of a mapping: a [`Value`], or a text for a key that is this text. No type of yours can be one.
pub trait Index: private::Sealed {
    #[doc(hidden)]
    fn is_key_into(&self, mapping: &Mapping) -> bool;
    #[doc(hidden)]
    fn index_into<'a>(&self, mapping: &'a Mapping) -> Option<&'a Value>;
    #[doc(hidden)]
    fn index_into_mut<'a>(&self, mapping: &'a mut Mapping) -> Option<&'a mut Value>;
    #[doc(hidden)]
    fn swap_remove_from(&self, mapping: &mut Mapping) -> Option<(Value, Value)>;
    #[doc(hidden)]
    fn shift_remove_from(&self, mapping: &mut Mapping) -> Option<(Value, Value)>;
}

mod private {
    pub trait Sealed {}
    impl Sealed for str {}
    impl Sealed for String {}
    impl Sealed for crate::Value {}
    impl<T: ?Sized + Sealed> Sealed for &T {}
}

// A text that is looked for as a key, without a copy of it.
struct Text<'a>(&'a str);

impl Hash for Text<'_> {
    fn hash<H: Hasher>(&self, state: &mut H) {
        // as `Value` does, whose kind comes first
        mem::discriminant(&Value::String(String::new())).hash(state);
        self.0.hash(state);
    }
}

impl Equivalent<Value> for Text<'_> {
    fn equivalent(&self, key: &Value) -> bool {
        matches!(key, Value::String(text) if text == self.0)
    }
}

macro_rules! index {
    ($kind:ty, $one:ident => $key:expr) => {
        impl Index for $kind {
            fn is_key_into(&self, mapping: &Mapping) -> bool {
                let $one = self;
                mapping.pairs.contains_key($key)
            }
            fn index_into<'a>(&self, mapping: &'a Mapping) -> Option<&'a Value> {
                let $one = self;
                mapping.pairs.get($key)
            }
            fn index_into_mut<'a>(&self, mapping: &'a mut Mapping) -> Option<&'a mut Value> {
                let $one = self;
                mapping.pairs.get_mut($key)
            }
            fn swap_remove_from(&self, mapping: &mut Mapping) -> Option<(Value, Value)> {
                let $one = self;
                mapping.pairs.swap_remove_entry($key)
            }
            fn shift_remove_from(&self, mapping: &mut Mapping) -> Option<(Value, Value)> {
                let $one = self;
                mapping.pairs.shift_remove_entry($key)
            }
        }
    };
}

index!(Value, key => key);
index!(str, text => &Text(text));
index!(String, text => &Text(text));

impl<T: ?Sized + Index> Index for &T {
    fn is_key_into(&self, mapping: &Mapping) -> bool {
        (**self).is_key_into(mapping)
    }
    fn index_into<'a>(&self, mapping: &'a Mapping) -> Option<&'a Value> {
        (**self).index_into(mapping)
    }
    fn index_into_mut<'a>(&self, mapping: &'a mut Mapping) -> Option<&'a mut Value> {
        (**self).index_into_mut(mapping)
    }
    fn swap_remove_from(&self, mapping: &mut Mapping) -> Option<(Value, Value)> {
        (**self).swap_remove_from(mapping)
    }
    fn shift_remove_from(&self, mapping: &mut Mapping) -> Option<(Value, Value)> {
        (**self).shift_remove_from(mapping)
    }
}

impl<I: Index> ops::Index<I> for Mapping {
    type Output = Value;

    #[track_caller]
    fn index(&self, index: I) -> &Value {
        index.index_into(self).expect("no entry found for key")
    }
}

impl<I: Index> ops::IndexMut<I> for Mapping {
    #[track_caller]
    fn index_mut(&mut self, index: I) -> &mut Value {
        index.index_into_mut(self).expect("no entry found for key")
    }
}

/// The place of a key.
pub enum Entry<'a> {
    /// The key is there.
    Occupied(OccupiedEntry<'a>),
    /// It is not.
    Vacant(VacantEntry<'a>),
}

/// The place of a key that is there.
pub struct OccupiedEntry<'a> {
    inner: map::OccupiedEntry<'a, Value, Value>,
}

/// The place of a key that is not there.
pub struct VacantEntry<'a> {
    inner: map::VacantEntry<'a, Value, Value>,
}

impl<'a> Entry<'a> {
    pub(super) fn of(entry: map::Entry<'a, Value, Value>) -> Entry<'a> {
        match entry {
            map::Entry::Occupied(inner) => Entry::Occupied(OccupiedEntry { inner }),
            map::Entry::Vacant(inner) => Entry::Vacant(VacantEntry { inner }),
        }
    }

    /// The key.
    pub fn key(&self) -> &Value {
        match self {
            Entry::Occupied(entry) => entry.key(),
            Entry::Vacant(entry) => entry.key(),
        }
    }

    /// The value, after the given one was put there if there was none.
    pub fn or_insert(self, default: Value) -> &'a mut Value {
        self.or_insert_with(|| default)
    }

    /// The same, of a value that is made only if there is none.
    pub fn or_insert_with<F: FnOnce() -> Value>(self, default: F) -> &'a mut Value {
        match self {
            Entry::Occupied(entry) => entry.into_mut(),
            Entry::Vacant(entry) => entry.insert(default()),
        }
    }

    /// Changes the value, if there is one.
    pub fn and_modify<F: FnOnce(&mut Value)>(mut self, change: F) -> Self {
        if let Entry::Occupied(entry) = &mut self {
            change(entry.get_mut());
        }
        self
    }
}

impl<'a> OccupiedEntry<'a> {
    /// The key.
    pub fn key(&self) -> &Value {
        self.inner.key()
    }

    /// The value.
    pub fn get(&self) -> &Value {
        self.inner.get()
    }

    /// The value, to be changed.
    pub fn get_mut(&mut self) -> &mut Value {
        self.inner.get_mut()
    }

    /// The value, to be changed, for as long as the mapping is lent.
    pub fn into_mut(self) -> &'a mut Value {
        self.inner.into_mut()
    }

    /// Puts another value there, and answers the one that was.
    pub fn insert(&mut self, value: Value) -> Value {
        self.inner.insert(value)
    }

    /// Takes the pair out, as `swap_remove` of the mapping, and answers its value.
    pub fn remove(self) -> Value {
        self.inner.swap_remove()
    }

    /// Takes the pair out.
    pub fn remove_entry(self) -> (Value, Value) {
        self.inner.swap_remove_entry()
    }
}

impl<'a> VacantEntry<'a> {
    /// The key.
    pub fn key(&self) -> &Value {
        self.inner.key()
    }

    /// The key, taken out.
    pub fn into_key(self) -> Value {
        self.inner.into_key()
    }

    /// Puts a value there.
    pub fn insert(self, value: Value) -> &'a mut Value {
        self.inner.insert(value)
    }
}

//! Mappings: pairs in the order of the text, found by their keys.

use crate::value::Value;
use indexmap::IndexMap;
use serde::de::{Deserialize, Deserializer, MapAccess, Visitor};
use serde::ser::{Serialize, Serializer};
use std::cmp::Ordering;
use std::collections::hash_map::DefaultHasher;
use std::fmt::{self, Display};
use std::hash::{Hash, Hasher};

mod access;
mod iterators;

pub use access::{Entry, Index, OccupiedEntry, VacantEntry};
pub use iterators::{IntoIter, IntoKeys, IntoValues, Iter, IterMut, Keys, Values, ValuesMut};

/// A mapping, whose keys may be of any kind.
#[derive(Clone, Default, Eq, PartialEq)]
pub struct Mapping {
    pairs: IndexMap<Value, Value>,
}

impl Mapping {
    /// No pairs.
    pub fn new() -> Mapping {
        Mapping::default()
    }

    /// No pairs, with room for some.
    pub fn with_capacity(capacity: usize) -> Mapping {
        Mapping { pairs: IndexMap::with_capacity(capacity) }
    }

    /// Makes room for as many more pairs.
    pub fn reserve(&mut self, additional: usize) {
        self.pairs.reserve(additional);
    }

    /// Gives room back.
    pub fn shrink_to_fit(&mut self) {
        self.pairs.shrink_to_fit();
    }

    /// Puts a value under a key, and answers the one that was there.
    pub fn insert(&mut self, key: Value, value: Value) -> Option<Value> {
        self.pairs.insert(key, value)
    }

    /// Whether there is such a key.
    pub fn contains_key<I: Index>(&self, index: I) -> bool {
        index.is_key_into(self)
    }

    /// The value of a key.
    pub fn get<I: Index>(&self, index: I) -> Option<&Value> {
        index.index_into(self)
    }

    /// The value of a key, to be changed.
    pub fn get_mut<I: Index>(&mut self, index: I) -> Option<&mut Value> {
        index.index_into_mut(self)
    }

    /// The place of a key, whether there is one or not.
    pub fn entry(&mut self, key: Value) -> Entry<'_> {
        Entry::of(self.pairs.entry(key))
    }

    /// Takes a pair out, as `swap_remove`, and answers its value.
    pub fn remove<I: Index>(&mut self, index: I) -> Option<Value> {
        self.swap_remove(index)
    }

    /// Takes a pair out, as `swap_remove_entry`.
    pub fn remove_entry<I: Index>(&mut self, index: I) -> Option<(Value, Value)> {
        self.swap_remove_entry(index)
    }

    /// Takes a pair out, puts the last into its place, and answers its value.
    pub fn swap_remove<I: Index>(&mut self, index: I) -> Option<Value> {
        Some(index.swap_remove_from(self)?.1)
    }

    /// Takes a pair out, and puts the last into its place.
    pub fn swap_remove_entry<I: Index>(&mut self, index: I) -> Option<(Value, Value)> {
        index.swap_remove_from(self)
    }

    /// Takes a pair out, lets the others stay in their order, and answers its value.
    pub fn shift_remove<I: Index>(&mut self, index: I) -> Option<Value> {
        Some(index.shift_remove_from(self)?.1)
    }

    /// Takes a pair out, and lets the others stay in their order.
    pub fn shift_remove_entry<I: Index>(&mut self, index: I) -> Option<(Value, Value)> {
        index.shift_remove_from(self)
    }

    /// Keeps the pairs that pass.
    pub fn retain<F: FnMut(&Value, &mut Value) -> bool>(&mut self, keep: F) {
        self.pairs.retain(keep);
    }

    /// How many pairs there is room for.
    pub fn capacity(&self) -> usize {
        self.pairs.capacity()
    }

    /// How many pairs there are.
    pub fn len(&self) -> usize {
        self.pairs.len()
    }

    /// Whether there are none.
    pub fn is_empty(&self) -> bool {
        self.pairs.is_empty()
    }

    /// Takes all pairs out.
    pub fn clear(&mut self) {
        self.pairs.clear();
    }

    /// The pairs in their order.
    pub fn iter(&self) -> Iter<'_> {
        Iter::of(self.pairs.iter())
    }

    /// The pairs in their order, values to be changed.
    pub fn iter_mut(&mut self) -> IterMut<'_> {
        IterMut::of(self.pairs.iter_mut())
    }

    /// The keys.
    pub fn keys(&self) -> Keys<'_> {
        Keys::of(self.pairs.keys())
    }

    /// The keys, taken out.
    pub fn into_keys(self) -> IntoKeys {
        IntoKeys::of(self.pairs.into_keys())
    }

    /// The values.
    pub fn values(&self) -> Values<'_> {
        Values::of(self.pairs.values())
    }

    /// The values, to be changed.
    pub fn values_mut(&mut self) -> ValuesMut<'_> {
        ValuesMut::of(self.pairs.values_mut())
    }

    /// The values, taken out.
    pub fn into_values(self) -> IntoValues {
        IntoValues::of(self.pairs.into_values())
    }

    // The pairs by the order of their keys, to compare mappings without regard to theirs.
    fn sorted(&self) -> Vec<(&Value, &Value)> {
        let mut pairs: Vec<_> = self.pairs.iter().collect();
        pairs.sort_by(|a, b| a.0.partial_cmp(b.0).unwrap_or(Ordering::Equal));
        pairs
    }
}

// The same for each order of the pairs.
impl Hash for Mapping {
    fn hash<H: Hasher>(&self, state: &mut H) {
        let mut all = 0;
        for pair in &self.pairs {
            let mut hasher = DefaultHasher::new();
            pair.hash(&mut hasher);
            all ^= hasher.finish();
        }
        all.hash(state);
    }
}

impl PartialOrd for Mapping {
    fn partial_cmp(&self, other: &Mapping) -> Option<Ordering> {
        self.sorted().partial_cmp(&other.sorted())
    }
}

impl Extend<(Value, Value)> for Mapping {
    fn extend<I: IntoIterator<Item = (Value, Value)>>(&mut self, pairs: I) {
        self.pairs.extend(pairs);
    }
}

impl FromIterator<(Value, Value)> for Mapping {
    fn from_iter<I: IntoIterator<Item = (Value, Value)>>(pairs: I) -> Mapping {
        Mapping { pairs: pairs.into_iter().collect() }
    }
}

impl Serialize for Mapping {
    fn serialize<S: Serializer>(&self, serializer: S) -> Result<S::Ok, S::Error> {
        serializer.collect_map(self)
    }
}

impl<'de> Deserialize<'de> for Mapping {
    fn deserialize<D: Deserializer<'de>>(deserializer: D) -> Result<Mapping, D::Error> {
        struct MappingVisitor;

        impl<'de> Visitor<'de> for MappingVisitor {
            type Value = Mapping;

            fn expecting(&self, f: &mut fmt::Formatter) -> fmt::Result {
                f.write_str("a YAML mapping")
            }

            fn visit_unit<E>(self) -> Result<Mapping, E> {
                Ok(Mapping::new())
            }

            fn visit_map<A: MapAccess<'de>>(self, mut data: A) -> Result<Mapping, A::Error> {
                let mut mapping = Mapping::new();
                while let Some(key) = data.next_key()? {
                    match mapping.entry(key) {
                        Entry::Occupied(entry) => return Err(serde::de::Error::custom(DuplicateKey(entry.key()))),
                        Entry::Vacant(entry) => {
                            entry.insert(data.next_value()?);
                        }
                    }
                }
                Ok(mapping)
            }
        }

        deserializer.deserialize_map(MappingVisitor)
    }
}

// A key that stands twice, for a fault.
struct DuplicateKey<'a>(&'a Value);

impl Display for DuplicateKey<'_> {
    fn fmt(&self, f: &mut fmt::Formatter) -> fmt::Result {
        f.write_str("duplicate entry ")?;
        match self.0 {
            Value::Null => f.write_str("with null key"),
            Value::Bool(truth) => write!(f, "with key `{truth}`"),
            Value::Number(number) => write!(f, "with key {number}"),
            Value::String(text) => write!(f, "with key {text:?}"),
            Value::Sequence(_) | Value::Mapping(_) | Value::Tagged(_) => f.write_str("in YAML map"),
        }
    }
}

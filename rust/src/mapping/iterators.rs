//! Iterators over the pairs, keys and values of a mapping.

use super::Mapping;
use crate::value::Value;
use indexmap::map;
use std::iter::FusedIterator;

macro_rules! iterator {
    ($(#[$doc:meta])* $name:ident $(<$life:lifetime>)? : $inner:ty => $item:ty) => {
        $(#[$doc])*
        pub struct $name $(<$life>)? {
            inner: $inner,
        }

        impl $(<$life>)? $name $(<$life>)? {
            pub(super) fn of(inner: $inner) -> Self {
                $name { inner }
            }
        }

        impl $(<$life>)? Iterator for $name $(<$life>)? {
            type Item = $item;

            fn next(&mut self) -> Option<$item> {
                self.inner.next()
            }

            fn size_hint(&self) -> (usize, Option<usize>) {
                self.inner.size_hint()
            }
        }

        impl $(<$life>)? DoubleEndedIterator for $name $(<$life>)? {
            fn next_back(&mut self) -> Option<$item> {
                self.inner.next_back()
            }
        }

        impl $(<$life>)? ExactSizeIterator for $name $(<$life>)? {
            fn len(&self) -> usize {
                self.inner.len()
            }
        }

        impl $(<$life>)? FusedIterator for $name $(<$life>)? {}
    };
}

iterator! {
    /// The pairs.
    Iter<'a>: map::Iter<'a, Value, Value> => (&'a Value, &'a Value)
}
iterator! {
    /// The pairs, values to be changed.
    IterMut<'a>: map::IterMut<'a, Value, Value> => (&'a Value, &'a mut Value)
}
iterator! {
    /// The pairs, taken out.
    IntoIter: map::IntoIter<Value, Value> => (Value, Value)
}
iterator! {
    /// The keys.
    Keys<'a>: map::Keys<'a, Value, Value> => &'a Value
}
iterator! {
    /// The keys, taken out.
    IntoKeys: map::IntoKeys<Value, Value> => Value
}
iterator! {
    /// The values.
    Values<'a>: map::Values<'a, Value, Value> => &'a Value
}
iterator! {
    /// The values, to be changed.
    ValuesMut<'a>: map::ValuesMut<'a, Value, Value> => &'a mut Value
}
iterator! {
    /// The values, taken out.
    IntoValues: map::IntoValues<Value, Value> => Value
}

impl<'a> IntoIterator for &'a Mapping {
    type Item = (&'a Value, &'a Value);
    type IntoIter = Iter<'a>;

    fn into_iter(self) -> Iter<'a> {
        self.iter()
    }
}

impl<'a> IntoIterator for &'a mut Mapping {
    type Item = (&'a Value, &'a mut Value);
    type IntoIter = IterMut<'a>;

    fn into_iter(self) -> IterMut<'a> {
        self.iter_mut()
    }
}

impl IntoIterator for Mapping {
    type Item = (Value, Value);
    type IntoIter = IntoIter;

    fn into_iter(self) -> IntoIter {
        IntoIter::of(self.pairs.into_iter())
    }
}

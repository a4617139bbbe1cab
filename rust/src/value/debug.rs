//! The debug text of values.

use super::Value;
use crate::mapping::Mapping;
use std::fmt::{self, Debug, Display};

impl Debug for Value {
    fn fmt(&self, f: &mut fmt::Formatter) -> fmt::Result {
        match self {
            Value::Null => f.write_str("Null"),
            Value::Bool(truth) => write!(f, "Bool({truth})"),
            Value::Number(number) => Debug::fmt(number, f),
            Value::String(text) => write!(f, "String({text:?})"),
            Value::Sequence(sequence) => {
                f.write_str("Sequence ")?;
                Debug::fmt(sequence, f)
            }
            Value::Mapping(mapping) => Debug::fmt(mapping, f),
            Value::Tagged(tagged) => Debug::fmt(tagged, f),
        }
    }
}

impl Debug for Mapping {
    fn fmt(&self, f: &mut fmt::Formatter) -> fmt::Result {
        // a scalar that is a key stands as itself
        struct Key<'a>(&'a Value);
        impl Debug for Key<'_> {
            fn fmt(&self, f: &mut fmt::Formatter) -> fmt::Result {
                match self.0 {
                    Value::Bool(truth) => Display::fmt(truth, f),
                    Value::Number(number) => Display::fmt(number, f),
                    Value::String(text) => Debug::fmt(text, f),
                    other => Debug::fmt(other, f),
                }
            }
        }
        f.write_str("Mapping ")?;
        f.debug_map().entries(self.iter().map(|(key, value)| (Key(key), value))).finish()
    }
}

//! A value of any kind.

mod compare;
mod convert;
mod de;
mod debug;
mod from;
mod index;
mod probe;
mod read;
mod ser;
mod tagged;

pub use crate::mapping::Mapping;
pub use crate::number::Number;
pub use convert::{from_value, to_value};
pub use index::Index;
pub use ser::Serializer;
pub(crate) use tagged::{check_for_tag, MaybeTag};
pub use tagged::{Tag, TaggedValue};

use crate::error::{self, Fault, Result};
use std::hash::{Hash, Hasher};
use std::mem;

/// The elements of a sequence.
pub type Sequence = Vec<Value>;

/// What a text holds, where no type is known.
///
/// ```
/// let value: panelhemp_yaml::Value = panelhemp_yaml::from_str("servers: [{port: 80}]")?;
/// assert_eq!(value["servers"][0]["port"], 80);
/// assert!(value["servers"][1].is_null());
/// # Ok::<(), panelhemp_yaml::Error>(())
/// ```
#[derive(Clone, Default, PartialEq, PartialOrd)]
pub enum Value {
    /// Null.
    #[default]
    Null,
    /// A boolean.
    Bool(bool),
    /// An integer or a float.
    Number(Number),
    /// A text.
    String(String),
    /// A sequence.
    Sequence(Sequence),
    /// A mapping.
    Mapping(Mapping),
    /// One of these under a local tag.
    Tagged(Box<TaggedValue>),
}

// The numbers of this crate have one NaN, which is equal to itself.
impl Eq for Value {}

// First the kind, as for the texts that a mapping looks for as keys.
impl Hash for Value {
    fn hash<H: Hasher>(&self, state: &mut H) {
        mem::discriminant(self).hash(state);
        match self {
            Value::Null => {}
            Value::Bool(truth) => truth.hash(state),
            Value::Number(number) => number.hash(state),
            Value::String(text) => text.hash(state),
            Value::Sequence(sequence) => sequence.hash(state),
            Value::Mapping(mapping) => mapping.hash(state),
            Value::Tagged(tagged) => tagged.hash(state),
        }
    }
}

impl Value {
    /// The element or value at a place or key. Tags are looked through.
    pub fn get<I: Index>(&self, index: I) -> Option<&Value> {
        index.index_into(self)
    }

    /// The same, to be changed.
    pub fn get_mut<I: Index>(&mut self, index: I) -> Option<&mut Value> {
        index.index_into_mut(self)
    }

    /// Whether it is null.
    pub fn is_null(&self) -> bool {
        matches!(self.untag_ref(), Value::Null)
    }

    /// `()`, if it is null.
    pub fn as_null(&self) -> Option<()> {
        self.is_null().then_some(())
    }

    /// Whether it is a boolean.
    pub fn is_bool(&self) -> bool {
        self.as_bool().is_some()
    }

    /// The boolean, if it is one.
    pub fn as_bool(&self) -> Option<bool> {
        match self.untag_ref() {
            Value::Bool(truth) => Some(*truth),
            _ => None,
        }
    }

    /// Whether it is a number.
    pub fn is_number(&self) -> bool {
        matches!(self.untag_ref(), Value::Number(_))
    }

    fn number(&self) -> Option<&Number> {
        match self.untag_ref() {
            Value::Number(number) => Some(number),
            _ => None,
        }
    }

    /// Whether it is an integer that fits an `i64`.
    pub fn is_i64(&self) -> bool {
        self.as_i64().is_some()
    }

    /// The integer, if it is one that fits an `i64`.
    pub fn as_i64(&self) -> Option<i64> {
        self.number()?.as_i64()
    }

    /// Whether it is an integer that fits a `u64`.
    pub fn is_u64(&self) -> bool {
        self.as_u64().is_some()
    }

    /// The integer, if it is one that fits a `u64`.
    pub fn as_u64(&self) -> Option<u64> {
        self.number()?.as_u64()
    }

    /// Whether it is a float.
    pub fn is_f64(&self) -> bool {
        self.number().map_or(false, Number::is_f64)
    }

    /// The number as a float, if it is a number.
    pub fn as_f64(&self) -> Option<f64> {
        self.number()?.as_f64()
    }

    /// Whether it is a text.
    pub fn is_string(&self) -> bool {
        self.as_str().is_some()
    }

    /// The text, if it is one.
    pub fn as_str(&self) -> Option<&str> {
        match self.untag_ref() {
            Value::String(text) => Some(text),
            _ => None,
        }
    }

    /// Whether it is a sequence.
    pub fn is_sequence(&self) -> bool {
        self.as_sequence().is_some()
    }

    /// The sequence, if it is one.
    pub fn as_sequence(&self) -> Option<&Sequence> {
        match self.untag_ref() {
            Value::Sequence(sequence) => Some(sequence),
            _ => None,
        }
    }

    /// The sequence, to be changed.
    pub fn as_sequence_mut(&mut self) -> Option<&mut Sequence> {
        match self.untag_mut() {
            Value::Sequence(sequence) => Some(sequence),
            _ => None,
        }
    }

    /// Whether it is a mapping.
    pub fn is_mapping(&self) -> bool {
        self.as_mapping().is_some()
    }

    /// The mapping, if it is one.
    pub fn as_mapping(&self) -> Option<&Mapping> {
        match self.untag_ref() {
            Value::Mapping(mapping) => Some(mapping),
            _ => None,
        }
    }

    /// The mapping, to be changed.
    pub fn as_mapping_mut(&mut self) -> Option<&mut Mapping> {
        match self.untag_mut() {
            Value::Mapping(mapping) => Some(mapping),
            _ => None,
        }
    }

    /// Takes each key `<<` out, and puts the pairs of the mapping or mappings under it behind the others, but for keys
    /// that are there. Merged mappings are not merged again.
    ///
    /// # Errors
    ///
    /// Under `<<` is a scalar or a tagged value, or a sequence with an element that is no mapping.
    pub fn apply_merge(&mut self) -> Result<()> {
        let mut open: Vec<&mut Value> = vec![self];
        while let Some(value) = open.pop() {
            match value {
                Value::Mapping(mapping) => {
                    match mapping.remove("<<") {
                        None => {}
                        Some(Value::Mapping(merged)) => merge(mapping, merged),
                        Some(Value::Sequence(sequence)) => merge_all(mapping, sequence)?,
                        Some(Value::Tagged(_)) => return refuse_merge("unexpected tagged value in merge"),
                        Some(_) => {
                            return refuse_merge(
                                "expected a mapping or list of mappings for merging, but found scalar",
                            );
                        }
                    }
                    open.extend(mapping.values_mut());
                }
                Value::Sequence(sequence) => open.extend(sequence),
                Value::Tagged(tagged) => open.push(&mut tagged.value),
                _ => {}
            }
        }
        Ok(())
    }

    /// The value below all tags.
    pub(crate) fn untag_ref(&self) -> &Value {
        let mut value = self;
        while let Value::Tagged(tagged) = value {
            value = &tagged.value;
        }
        value
    }

    pub(crate) fn untag_mut(&mut self) -> &mut Value {
        let mut value = self;
        while let Value::Tagged(tagged) = value {
            value = &mut tagged.value;
        }
        value
    }

    pub(crate) fn untag(self) -> Value {
        let mut value = self;
        while let Value::Tagged(tagged) = value {
            value = tagged.value;
        }
        value
    }
}

fn refuse_merge(message: &'static str) -> Result<()> {
    Err(error::new(Fault::Merge(message)))
}

fn merge(mapping: &mut Mapping, merged: Mapping) {
    for (key, value) in merged {
        mapping.entry(key).or_insert(value);
    }
}

fn merge_all(mapping: &mut Mapping, sequence: Sequence) -> Result<()> {
    for value in sequence {
        match value {
            Value::Mapping(merged) => merge(mapping, merged),
            Value::Sequence(_) => {
                return refuse_merge("expected a mapping for merging, but found sequence");
            }
            Value::Tagged(_) => return refuse_merge("unexpected tagged value in merge"),
            _ => return refuse_merge("expected a mapping for merging, but found scalar"),
        }
    }
    Ok(())
}

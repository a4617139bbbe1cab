//! Values under local tags.

use super::de::Variant;
use super::Value;
use crate::error::{self, Error, Fault};
use serde::de::{self, Deserialize, DeserializeSeed, Deserializer, EnumAccess, VariantAccess, Visitor};
use serde::forward_to_deserialize_any;
use serde::ser::{Serialize, SerializeMap, Serializer};
use std::cmp::Ordering;
use std::fmt::{self, Debug, Display, Write};
use std::hash::{Hash, Hasher};
use std::mem;

/// The name of a local tag. `Thing` and `!Thing` are the same one.
#[derive(Clone)]
pub struct Tag {
    pub(crate) string: String,
}

/// A value and its tag.
#[derive(Clone, PartialEq, PartialOrd, Hash, Debug)]
pub struct TaggedValue {
    /// The tag.
    pub tag: Tag,
    /// The value.
    pub value: Value,
}

impl Tag {
    /// A tag of this name, with its `!` or without.
    ///
    /// # Panics
    ///
    /// The text is empty.
    pub fn new(string: impl Into<String>) -> Self {
        let string = string.into();
        assert!(!string.is_empty(), "empty YAML tag is not allowed");
        Tag { string }
    }

    // The name without its `!`, but for the tag that is `!` alone.
    pub(super) fn name(&self) -> &str {
        match self.string.strip_prefix('!') {
            Some("") | None => &self.string,
            Some(name) => name,
        }
    }
}

impl TryFrom<&[u8]> for Tag {
    type Error = Error;

    fn try_from(bytes: &[u8]) -> Result<Tag, Error> {
        match std::str::from_utf8(bytes) {
            Ok(text) if !text.is_empty() => Ok(Tag::new(text)),
            _ => Err(error::new(Fault::EmptyTag)),
        }
    }
}

impl Eq for Tag {}

impl PartialEq for Tag {
    fn eq(&self, other: &Tag) -> bool {
        self.name() == other.name()
    }
}

impl<T: ?Sized + AsRef<str>> PartialEq<T> for Tag {
    fn eq(&self, other: &T) -> bool {
        let other = other.as_ref();
        !other.is_empty() && self.name() == Tag::new(other).name()
    }
}

impl Ord for Tag {
    fn cmp(&self, other: &Tag) -> Ordering {
        self.name().cmp(other.name())
    }
}

impl PartialOrd for Tag {
    fn partial_cmp(&self, other: &Tag) -> Option<Ordering> {
        Some(self.cmp(other))
    }
}

impl Hash for Tag {
    fn hash<H: Hasher>(&self, state: &mut H) {
        self.name().hash(state);
    }
}

impl Display for Tag {
    fn fmt(&self, f: &mut fmt::Formatter) -> fmt::Result {
        // in two pieces, by which the serializer knows a tag
        f.write_str("!")?;
        f.write_str(self.name())
    }
}

impl Debug for Tag {
    fn fmt(&self, f: &mut fmt::Formatter) -> fmt::Result {
        Display::fmt(self, f)
    }
}

impl Serialize for TaggedValue {
    fn serialize<S: Serializer>(&self, serializer: S) -> Result<S::Ok, S::Error> {
        struct AsKey<'a>(&'a Tag);
        impl Serialize for AsKey<'_> {
            fn serialize<S: Serializer>(&self, serializer: S) -> Result<S::Ok, S::Error> {
                serializer.collect_str(self.0)
            }
        }
        let mut map = serializer.serialize_map(Some(1))?;
        map.serialize_entry(&AsKey(&self.tag), &self.value)?;
        map.end()
    }
}

impl<'de> Deserialize<'de> for TaggedValue {
    fn deserialize<D: Deserializer<'de>>(deserializer: D) -> Result<TaggedValue, D::Error> {
        struct TaggedVisitor;
        impl<'de> Visitor<'de> for TaggedVisitor {
            type Value = TaggedValue;

            fn expecting(&self, f: &mut fmt::Formatter) -> fmt::Result {
                f.write_str("a YAML value with a !Tag")
            }

            fn visit_enum<A: EnumAccess<'de>>(self, data: A) -> Result<TaggedValue, A::Error> {
                let (tag, content) = data.variant_seed(TagSeed)?;
                let value = content.newtype_variant()?;
                Ok(TaggedValue { tag, value })
            }
        }
        deserializer.deserialize_any(TaggedVisitor)
    }
}

macro_rules! tagged_deserializer {
    ($($holder:ty: $tagged:ident => $variant:expr;)*) => {$(
        impl<'de> Deserializer<'de> for $holder {
            type Error = Error;

            fn deserialize_any<V: Visitor<'de>>(self, visitor: V) -> Result<V::Value, Error> {
                let $tagged = self;
                visitor.visit_enum($variant)
            }

            forward_to_deserialize_any! {
                bool i8 i16 i32 i64 i128 u8 u16 u32 u64 u128 f32 f64 char str string bytes byte_buf option unit
                unit_struct newtype_struct seq tuple tuple_struct map struct enum identifier ignored_any
            }
        }
    )*};
}

tagged_deserializer! {
    TaggedValue: tagged => Variant { name: tagged.tag.name().to_owned(), content: Some(tagged.value) };
    &'de TaggedValue: tagged => Variant { name: tagged.tag.name(), content: Some(&tagged.value) };
}

/// Reads the name of a tag.
pub(crate) struct TagSeed;

impl<'de> Visitor<'de> for TagSeed {
    type Value = Tag;

    fn expecting(&self, f: &mut fmt::Formatter) -> fmt::Result {
        f.write_str("a YAML tag string")
    }

    fn visit_str<E: de::Error>(self, text: &str) -> Result<Tag, E> {
        self.visit_string(text.to_owned())
    }

    fn visit_string<E: de::Error>(self, text: String) -> Result<Tag, E> {
        if text.is_empty() {
            return Err(E::custom(Fault::EmptyTag));
        }
        Ok(Tag::new(text))
    }
}

impl<'de> DeserializeSeed<'de> for TagSeed {
    type Value = Tag;

    fn deserialize<D: Deserializer<'de>>(self, deserializer: D) -> Result<Tag, D::Error> {
        deserializer.deserialize_string(self)
    }
}

/// What a key of a mapping of one pair is displayed as.
pub(crate) enum MaybeTag {
    /// A tag, without its `!`.
    Tag(String),
    /// Another text.
    NotTag(String),
}

/// Whether a value is displayed as `!` and one more piece, as [`Tag`] is.
pub(crate) fn check_for_tag<T: ?Sized + Display>(value: &T) -> MaybeTag {
    enum Pieces {
        None,
        Bang,
        Tag(String),
        Other(String),
    }
    impl Write for Pieces {
        fn write_str(&mut self, piece: &str) -> fmt::Result {
            if piece.is_empty() {
                return Ok(());
            }
            *self = match mem::replace(self, Pieces::None) {
                Pieces::None if piece == "!" => Pieces::Bang,
                Pieces::None => Pieces::Other(piece.to_owned()),
                Pieces::Bang => Pieces::Tag(piece.to_owned()),
                Pieces::Tag(name) => Pieces::Other(format!("!{name}{piece}")),
                Pieces::Other(text) => Pieces::Other(text + piece),
            };
            Ok(())
        }
    }
    let mut pieces = Pieces::None;
    // a type whose display fails is taken for what it wrote until then
    let _ = write!(pieces, "{value}");
    match pieces {
        Pieces::None => MaybeTag::NotTag(String::new()),
        Pieces::Bang => MaybeTag::NotTag("!".to_owned()),
        Pieces::Tag(name) => MaybeTag::Tag(name),
        Pieces::Other(text) => MaybeTag::NotTag(text),
    }
}

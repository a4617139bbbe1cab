//! Types under which texts are read.

use crate::seen::Seen;
use serde::de::{self, Deserializer, IgnoredAny, Visitor};
use serde::{Deserialize, Serialize};
use std::borrow::Cow;
use std::collections::BTreeMap;
use std::fmt;

#[derive(Debug, Serialize, Deserialize, PartialEq, Eq, PartialOrd, Ord, Clone)]
#[serde(rename_all = "lowercase")]
pub enum Size {
    Any,
    Exact(u32),
    Pair(u8, u8),
    Range { low: i32, high: i32 },
    Whole(Option<Box<Size>>),
    Empty(()),
}

#[derive(Debug, Serialize, Deserialize)]
#[serde(deny_unknown_fields)]
pub struct Server {
    pub name: String,
    pub port: u16,
    #[serde(default)]
    pub tags: Vec<String>,
    pub label: Option<String>,
    pub ratio: Option<f64>,
    pub size: Option<Size>,
}

#[derive(Debug, Serialize, Deserialize)]
pub struct Loose {
    a: Option<bool>,
    b: Option<i64>,
    c: Option<Vec<Option<u8>>>,
    #[serde(flatten)]
    rest: BTreeMap<String, Any>,
}

#[derive(Debug, Serialize, Deserialize)]
#[serde(untagged)]
pub enum Any {
    Null(()),
    Bool(bool),
    Unsigned(u64),
    Signed(i64),
    Float(f64),
    Text(String),
    Seq(Vec<Any>),
    Map(BTreeMap<String, Any>),
}

#[derive(Debug, Serialize, Deserialize)]
#[serde(tag = "kind", content = "of")]
pub enum Adjacent {
    One(i32),
    Two { x: String },
    Three,
}

#[derive(Debug, Serialize, Deserialize)]
#[serde(tag = "kind")]
pub enum Internal {
    One { a: i32 },
    Two { x: String, y: Option<bool> },
    Three,
}

#[derive(Debug, Serialize, Deserialize)]
pub struct Renamed {
    #[serde(rename = "first-name", alias = "name")]
    name: String,
    #[serde(default = "fifty")]
    port: u8,
    #[serde(skip_serializing_if = "Option::is_none")]
    label: Option<char>,
    #[serde(skip)]
    #[allow(dead_code)]
    hidden: u8,
    inner: Option<Inner>,
}

fn fifty() -> u8 {
    50
}

#[derive(Debug, Serialize, Deserialize, Default)]
#[serde(default, rename_all = "kebab-case")]
pub struct Inner {
    is_on: bool,
    name: String,
    port: i16,
}

#[derive(Debug, Serialize, Deserialize)]
pub struct Wrapped(Vec<i64>);

#[derive(Debug, Serialize, Deserialize)]
pub struct Point(i32, f64, Option<String>);

#[derive(Debug, Serialize, Deserialize)]
pub struct Nothing;

#[derive(Debug, Serialize, Deserialize)]
pub struct List {
    #[serde(alias = "a")]
    head: i64,
    #[serde(alias = "b")]
    tail: Option<Box<List>>,
}

#[derive(Debug, Serialize, Deserialize, PartialEq, Eq, PartialOrd, Ord)]
pub enum Word {
    #[serde(rename = "a")]
    A,
    #[serde(rename = "true")]
    True,
    #[serde(rename = "1")]
    One,
    #[serde(other)]
    Other,
}

#[derive(Debug, Serialize, Deserialize)]
pub struct Lent<'a> {
    #[serde(borrow)]
    name: &'a str,
    #[serde(borrow)]
    label: Option<Cow<'a, str>>,
}

#[derive(Debug, Serialize, Deserialize)]
#[serde(transparent)]
pub struct Clear {
    inside: BTreeMap<String, Vec<Size>>,
}

#[derive(Debug, Serialize, Deserialize)]
#[serde(from = "i64", into = "String")]
pub struct Made(i64);

impl From<i64> for Made {
    fn from(v: i64) -> Made {
        Made(v / 2)
    }
}
impl From<Made> for String {
    fn from(v: Made) -> String {
        v.0.to_string()
    }
}
impl Clone for Made {
    fn clone(&self) -> Made {
        Made(self.0)
    }
}

#[derive(Debug, Serialize, Deserialize)]
#[serde(try_from = "String")]
pub struct Short(String);

impl TryFrom<String> for Short {
    type Error = String;
    fn try_from(v: String) -> Result<Short, String> {
        if v.len() > 4 {
            return Err(format!("{v:?} is too long"));
        }
        Ok(Short(v))
    }
}

/// Takes one element of a sequence, or one pair of a mapping, and leaves the rest.
#[derive(Debug, Serialize)]
pub struct First(String);

impl<'de> Deserialize<'de> for First {
    fn deserialize<D: Deserializer<'de>>(deserializer: D) -> Result<First, D::Error> {
        struct V;
        impl<'de> Visitor<'de> for V {
            type Value = First;
            fn expecting(&self, f: &mut fmt::Formatter) -> fmt::Result {
                f.write_str("something with parts")
            }
            fn visit_seq<A: de::SeqAccess<'de>>(self, mut data: A) -> Result<First, A::Error> {
                Ok(First(format!("{:?}", data.next_element::<Seen>()?)))
            }
            fn visit_map<A: de::MapAccess<'de>>(self, mut data: A) -> Result<First, A::Error> {
                Ok(First(format!("{:?}", data.next_entry::<Seen, Seen>()?)))
            }
            fn visit_enum<A: de::EnumAccess<'de>>(self, data: A) -> Result<First, A::Error> {
                let (name, content) = data.variant::<String>()?;
                de::VariantAccess::unit_variant(content)?;
                Ok(First(name))
            }
        }
        deserializer.deserialize_any(V)
    }
}

/// Bytes, which no YAML holds.
#[derive(Debug)]
pub struct Bytes(Vec<u8>);

impl<'de> Deserialize<'de> for Bytes {
    fn deserialize<D: Deserializer<'de>>(deserializer: D) -> Result<Bytes, D::Error> {
        struct V;
        impl Visitor<'_> for V {
            type Value = Bytes;
            fn expecting(&self, f: &mut fmt::Formatter) -> fmt::Result {
                f.write_str("bytes")
            }
        }
        deserializer.deserialize_bytes(V)
    }
}

impl Serialize for Bytes {
    fn serialize<S: serde::Serializer>(&self, s: S) -> Result<S::Ok, S::Error> {
        s.serialize_bytes(&self.0)
    }
}

/// What is stepped over.
#[derive(Debug, Deserialize)]
pub struct Over(IgnoredAny);

impl Serialize for Over {
    fn serialize<S: serde::Serializer>(&self, s: S) -> Result<S::Ok, S::Error> {
        s.serialize_unit()
    }
}

/// Calls a macro with a name and a type, for each type.
#[macro_export]
macro_rules! each_type {
    ($call:ident) => {
        $call! {
            "server" $crate::types::Server, "servers" Vec<$crate::types::Server>, "loose" $crate::types::Loose,
            "looses" Vec<$crate::types::Loose>, "any" $crate::types::Any, "sizes" Vec<$crate::types::Size>,
            "size" $crate::types::Size, "adjacent" $crate::types::Adjacent, "internal" $crate::types::Internal,
            "renamed" $crate::types::Renamed, "inner" $crate::types::Inner, "wrapped" $crate::types::Wrapped,
            "point" $crate::types::Point, "nothing" $crate::types::Nothing, "list" $crate::types::List,
            "words" Vec<$crate::types::Word>, "word keys" BTreeMap<$crate::types::Word, $crate::seen::Seen>,
            "clear" $crate::types::Clear, "made" Vec<$crate::types::Made>,
            "shorts" BTreeMap<String, $crate::types::Short>, "first" $crate::types::First,
            "firsts" Vec<$crate::types::First>, "bytes" $crate::types::Bytes, "over" $crate::types::Over,
            "overs" ($crate::types::Over, u8), "seen" $crate::seen::Seen,
            "seen map" BTreeMap<String, $crate::seen::Seen>, "seen option" Option<$crate::seen::Seen>,
            "map" BTreeMap<String, i64>, "texts" Vec<String>, "text map" BTreeMap<String, String>, "text" String,
            "floats" Vec<f64>, "singles" Vec<f32>, "pair" (u8, Option<String>), "unit" (), "units" Vec<()>,
            "i8" Vec<i8>, "u64" Vec<u64>, "i64" i64, "i128" Vec<i128>, "u128" Vec<u128>, "bools" Vec<bool>,
            "chars" Vec<char>, "options" Vec<Option<i32>>, "int keys" BTreeMap<i32, Vec<String>>,
            "bool keys" BTreeMap<bool, $crate::seen::Seen>, "array" [i32; 3],
            "result" Result<u8, String>, "deep" Vec<Vec<Vec<Option<BTreeMap<String, Vec<bool>>>>>>,
            "address" std::net::IpAddr, "duration" std::time::Duration, "range" std::ops::Range<i64>,
            "path" std::path::PathBuf, "set" std::collections::BTreeSet<Option<bool>>
        }
    };
}

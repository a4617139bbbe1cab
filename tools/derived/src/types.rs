//! The types of `crates/derived_types` and of the callers in `crates/derived_case`, with the same attributes.

use serde::{Deserialize, Deserializer, Serialize, Serializer};
use serde_yaml::{Mapping, Number, Value};
use std::borrow::Cow;
use std::collections::BTreeMap;

#[derive(Serialize, Deserialize)]
pub struct Server {
    pub name: String,
    port: u16,
    tags: Vec<String>,
}

#[derive(Serialize, Deserialize)]
#[serde(rename_all = "lowercase")]
pub enum Listen {
    Any,
    Port(u16),
    Socket { path: String },
}

#[derive(Serialize, Deserialize)]
#[serde(rename_all = "camelCase", deny_unknown_fields)]
pub struct Service {
    pub name: String,
    pub listen: Listen,
    #[serde(default)]
    pub max_jobs: u32,
    #[serde(skip_serializing_if = "Option::is_none")]
    pub label: Option<String>,
}

#[derive(Serialize, Deserialize)]
pub struct Person<'a> {
    pub name: &'a str,
}

#[derive(Serialize, Deserialize)]
pub struct Note<'a> {
    #[serde(borrow)]
    text: Cow<'a, str>,
}

fn eighty() -> u16 {
    80
}

#[derive(Serialize, Deserialize)]
#[serde(rename_all = "kebab-case")]
pub struct Setting {
    #[serde(rename = "on", alias = "enabled")]
    is_on: bool,
    #[serde(default = "eighty")]
    port: u16,
    #[serde(with = "hexadecimal")]
    back_colour: u32,
    #[serde(skip)]
    seen: bool,
}

mod hexadecimal {
    use super::*;
    pub fn serialize<S: Serializer>(number: &u32, out: S) -> Result<S::Ok, S::Error> {
        out.collect_str(&format_args!("{number:06x}"))
    }
    pub fn deserialize<'de, D: Deserializer<'de>>(from: D) -> Result<u32, D::Error> {
        let text = <Cow<'de, str>>::deserialize(from)?;
        u32::from_str_radix(&text, 16).map_err(|_| serde::de::Error::custom("no hexadecimal number"))
    }
}

#[derive(Default, Serialize, Deserialize)]
#[serde(default, rename_all = "SCREAMING_SNAKE_CASE")]
pub struct Window {
    full_width: u16,
    height: u16,
}

#[derive(Serialize, Deserialize)]
pub struct Place {
    row: u16,
    column: u16,
}

#[derive(Serialize, Deserialize)]
pub struct Mark {
    name: String,
    #[serde(flatten)]
    place: Place,
}

#[derive(Serialize, Deserialize)]
pub enum Figure {
    Dot,
    Circle {
        r: u8,
    },
    Line(i8, i8),
    Label(String),
    #[serde(rename = "none", alias = "nothing")]
    Nothing,
}

#[derive(Serialize, Deserialize)]
#[serde(tag = "kind", rename_all = "snake_case")]
pub enum Command {
    Stop,
    GoTo {
        line: u8,
    },
    #[serde(other)]
    Unknown,
}

#[derive(Serialize, Deserialize)]
#[serde(tag = "t", content = "c")]
pub enum Step {
    Stay,
    Go(i8),
    Jump { over: u8 },
}

#[derive(Serialize, Deserialize)]
#[serde(untagged)]
pub enum Scalar {
    Flag(bool),
    Number(i64),
    Text(String),
    List(Vec<u8>),
    Pair { left: u8, right: u8 },
}

#[derive(Serialize, Deserialize)]
pub struct Metres(u32);

#[derive(Serialize, Deserialize)]
pub struct Nothing;

#[derive(Serialize, Deserialize)]
pub struct Pair(i8, u16);

#[derive(Serialize, Deserialize)]
pub struct Ends<T> {
    from: T,
    to: T,
}

#[derive(Clone, Copy, Serialize, Deserialize)]
#[serde(try_from = "u8", into = "u8")]
pub struct Percent(u8);

impl TryFrom<u8> for Percent {
    type Error = &'static str;
    fn try_from(n: u8) -> Result<Percent, &'static str> {
        if n > 100 {
            Err("more than all")
        } else {
            Ok(Percent(n))
        }
    }
}

impl From<Percent> for u8 {
    fn from(p: Percent) -> u8 {
        p.0
    }
}

#[derive(Serialize, Deserialize)]
#[serde(transparent)]
pub struct Nest {
    inner: Vec<Nest>,
}

#[derive(Serialize, Deserialize)]
pub struct Passed {
    #[serde(skip_serializing)]
    nest: Nest,
}

#[derive(Serialize, Deserialize)]
pub struct Timeout(#[serde(with = "milliseconds")] std::time::Duration);

mod milliseconds {
    use serde::de::Error;
    use serde::{Deserialize, Deserializer, Serializer};
    use std::borrow::Cow;
    use std::time::Duration;

    pub fn serialize<S: Serializer>(time: &Duration, out: S) -> Result<S::Ok, S::Error> {
        out.collect_str(&format_args!("{}ms", time.as_millis()))
    }

    pub fn deserialize<'de, D: Deserializer<'de>>(from: D) -> Result<Duration, D::Error> {
        let text = Cow::<str>::deserialize(from)?;
        let number = text.strip_suffix("ms").and_then(|number| number.parse().ok());
        number.map(Duration::from_millis).ok_or_else(|| D::Error::custom("no milliseconds"))
    }
}

#[derive(Serialize, Deserialize)]
pub struct Backoff {
    first: Timeout,
    #[serde(default)]
    others: Vec<Timeout>,
    last: Option<Box<Timeout>>,
}

#[derive(Serialize, Deserialize)]
pub struct Chain {
    link: u8,
    next: Option<Box<Chain>>,
}

#[derive(Serialize, Deserialize)]
#[serde(rename_all = "lowercase")]
pub enum Size {
    Exact(f64),
    Range { low: f64, high: f64 },
    Any,
}

#[derive(Serialize, Deserialize)]
pub struct Weather {
    wind: f64,
    #[serde(default)]
    rain: Option<f32>,
    #[serde(default)]
    hours: Vec<f64>,
    #[serde(default)]
    size: Option<Size>,
}

#[derive(Serialize, Deserialize)]
#[serde(deny_unknown_fields)]
pub struct Parcel {
    name: String,
    given: Value,
    #[serde(default, skip_serializing_if = "Option::is_none")]
    more: Option<Value>,
}

#[derive(Serialize, Deserialize)]
#[serde(rename_all = "kebab-case")]
pub struct Task {
    runs_on: String,
    #[serde(default)]
    steps: Vec<Mapping>,
    #[serde(flatten)]
    rest: Mapping,
}

#[derive(Serialize, Deserialize)]
pub struct Spot {
    row: u8,
}

#[derive(Serialize, Deserialize)]
pub struct Sign {
    text: String,
    #[serde(flatten)]
    spot: Spot,
    #[serde(flatten)]
    rest: Mapping,
}

#[derive(Serialize, Deserialize)]
#[serde(untagged)]
pub enum Either {
    Known(u8),
    Other(Value),
}

#[derive(Serialize, Deserialize)]
pub enum Choice {
    Any(Value),
    Pairs { pairs: Mapping, size: Number },
}

#[derive(Serialize, Deserialize)]
#[serde(deny_unknown_fields)]
pub struct Retry {
    attempts: u8,
    delay: u8,
    #[serde(skip_serializing_if = "Option::is_none")]
    label: Option<String>,
}

#[derive(Serialize, Deserialize)]
pub struct Plan {
    jobs: BTreeMap<String, Retry>,
}

#[derive(Serialize, Deserialize)]
pub enum Deed {
    Rest,
    Draw(Figure),
    Move { what: Figure, by: Option<u8> },
    Each(Vec<Figure>),
    Swap(Figure, Figure),
}

#[derive(Serialize, Deserialize)]
pub struct Drawing {
    #[serde(with = "serde_yaml::with::singleton_map")]
    first: Deed,
    #[serde(default, with = "serde_yaml::with::singleton_map_optional", skip_serializing_if = "Option::is_none")]
    next: Option<Figure>,
    #[serde(default, with = "serde_yaml::with::singleton_map_recursive")]
    others: Vec<Deed>,
    #[serde(default)]
    tagged: Vec<Figure>,
}

/// A value, each variant in which is a mapping of one entry.
pub struct Singletons<T>(T);

impl<'de, T: Deserialize<'de>> Deserialize<'de> for Singletons<T> {
    fn deserialize<D: Deserializer<'de>>(from: D) -> Result<Singletons<T>, D::Error> {
        serde_yaml::with::singleton_map_recursive::deserialize(from).map(Singletons)
    }
}

impl<T: Serialize> Serialize for Singletons<T> {
    fn serialize<S: Serializer>(&self, out: S) -> Result<S::Ok, S::Error> {
        serde_yaml::with::singleton_map_recursive::serialize(&self.0, out)
    }
}

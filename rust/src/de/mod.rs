//! Reading of types, and of documents in turn.

mod access;
mod document;
mod reader;
mod scalar;
mod typed;

use crate::error::{self, Error, Fault, Result};
use crate::loaded::Loaded;
use document::{Document, Documents};
use reader::Reader;
use serde::de::{self, Deserialize, DeserializeOwned, Visitor};
use std::io::Read;
use std::mem;
use std::sync::Arc;

/// Reads the one document of a text, or, as an iterator, gives a `Deserializer` for each of its documents.
///
/// ```
/// use serde::Deserialize;
/// let mut ports = Vec::new();
/// for document in panelhemp_yaml::Deserializer::from_str("80\n--- 443\n") {
///     ports.push(u16::deserialize(document)?);
/// }
/// assert_eq!(ports, [80, 443]);
/// # Ok::<(), panelhemp_yaml::Error>(())
/// ```
pub struct Deserializer<'de> {
    progress: Progress<'de>,
}

enum Progress<'de> {
    Str(&'de str),
    Slice(&'de [u8]),
    Read(Box<dyn Read + 'de>),
    Iterated(Documents<'de>),
    One(Document<'de>),
    Failed(Option<Arc<Fault>>),
}

impl<'de> Progress<'de> {
    // The documents, all of which are found now.
    fn documents(self) -> Result<Documents<'de>> {
        let loaded = match self {
            Progress::Str(text) => Loaded::of_str(text)?,
            Progress::Slice(text) => Loaded::of_slice(text)?,
            Progress::Read(mut reader) => {
                let mut text = Vec::new();
                reader.read_to_end(&mut text).map_err(|fault| error::new(Fault::Io(fault)))?;
                Loaded::of_vec(text)?
            }
            Progress::Iterated(documents) => return Ok(documents),
            Progress::One(document) => return Ok(Documents::only(document)),
            Progress::Failed(fault) => return Err(fault.map_or_else(|| error::new(Fault::EndOfStream), Error::from)),
        };
        Ok(Documents::of(loaded))
    }
}

impl<'de> Deserializer<'de> {
    /// Of a text. Values may borrow from it.
    #[allow(clippy::should_implement_trait)]
    pub fn from_str(s: &'de str) -> Self {
        Deserializer { progress: Progress::Str(s) }
    }

    /// Of the bytes of a text. Values may borrow from it.
    pub fn from_slice(v: &'de [u8]) -> Self {
        Deserializer { progress: Progress::Slice(v) }
    }

    /// Of a reader, which is read to its end at the first use. Values can't borrow.
    pub fn from_reader<R>(rdr: R) -> Self
    where
        R: Read + 'de,
    {
        Deserializer { progress: Progress::Read(Box::new(rdr)) }
    }

    // Reads the only document by one call of a reader.
    fn only<T>(self, read: impl for<'r> FnOnce(&mut Reader<'de, 'r>) -> Result<T>) -> Result<T> {
        if let Progress::Iterated(_) = self.progress {
            return Err(error::new(Fault::MoreThanOneDocument));
        }
        let mut documents = self.progress.documents()?;
        let document = documents.next().ok_or_else(|| error::new(Fault::EndOfStream))?;
        let value = document.read(read)?;
        match documents.next() {
            None => Ok(value),
            Some(_) => Err(error::new(Fault::MoreThanOneDocument)),
        }
    }
}

impl<'de> Iterator for Deserializer<'de> {
    type Item = Self;

    fn next(&mut self) -> Option<Self> {
        match &mut self.progress {
            Progress::Iterated(documents) => {
                return documents.next().map(|document| Deserializer { progress: Progress::One(document) });
            }
            Progress::One(_) => return None,
            // a text that could not be looked at is told once
            Progress::Failed(fault) => {
                return fault.take().map(|fault| Deserializer { progress: Progress::Failed(Some(fault)) });
            }
            _ => {}
        }
        let progress = mem::replace(&mut self.progress, Progress::Failed(None));
        self.progress = match progress.documents() {
            Ok(documents) => Progress::Iterated(documents),
            Err(fault) => Progress::Failed(Some(fault.shared())),
        };
        self.next()
    }
}

macro_rules! forward {
    ($($call:ident ($($name:ident: $kind:ty),*);)*) => {$(
        fn $call<V: Visitor<'de>>(self, $($name: $kind,)* visitor: V) -> Result<V::Value> {
            self.only(|reader| reader.$call($($name,)* visitor))
        }
    )*};
}

impl<'de> de::Deserializer<'de> for Deserializer<'de> {
    type Error = Error;

    forward! {
        deserialize_any();
        deserialize_bool();
        deserialize_i8();
        deserialize_i16();
        deserialize_i32();
        deserialize_i64();
        deserialize_i128();
        deserialize_u8();
        deserialize_u16();
        deserialize_u32();
        deserialize_u64();
        deserialize_u128();
        deserialize_f32();
        deserialize_f64();
        deserialize_char();
        deserialize_str();
        deserialize_string();
        deserialize_bytes();
        deserialize_byte_buf();
        deserialize_option();
        deserialize_unit();
        deserialize_unit_struct(name: &'static str);
        deserialize_newtype_struct(name: &'static str);
        deserialize_seq();
        deserialize_tuple(len: usize);
        deserialize_tuple_struct(name: &'static str, len: usize);
        deserialize_map();
        deserialize_struct(name: &'static str, fields: &'static [&'static str]);
        deserialize_enum(name: &'static str, variants: &'static [&'static str]);
        deserialize_identifier();
        deserialize_ignored_any();
    }
}

/// The value of a text's one document, which may borrow from the text.
///
/// # Errors
///
/// The text is no YAML, has more than one document, or holds another thing than `T`; or memory ran out.
pub fn from_str<'de, T>(s: &'de str) -> Result<T>
where
    T: Deserialize<'de>,
{
    T::deserialize(Deserializer::from_str(s))
}

/// The value of a reader's one document. The reader is read to its end.
///
/// # Errors
///
/// As of [`from_str`], or the reader's.
pub fn from_reader<R, T>(rdr: R) -> Result<T>
where
    R: Read,
    T: DeserializeOwned,
{
    T::deserialize(Deserializer::from_reader(rdr))
}

/// The value of the one document of a text in bytes, which may borrow from them.
///
/// # Errors
///
/// As of [`from_str`]; bytes that are no UTF-8 are no YAML.
pub fn from_slice<'de, T>(v: &'de [u8]) -> Result<T>
where
    T: Deserialize<'de>,
{
    T::deserialize(Deserializer::from_slice(v))
}

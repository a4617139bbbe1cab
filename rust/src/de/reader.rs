//! A walk over the rows of a document.

use super::access::{MapAccess, SeqAccess};
use super::document::Document;
use crate::error::{self, Error, Fault, Result};
use crate::path::Path;
use crate::rows::{Kind, Row, TagKind};
use serde::de::{self, Expected, IgnoredAny, Visitor};
use std::fmt;

/// Reads the node at a place.
pub(crate) struct Reader<'de, 'r> {
    pub document: &'r Document<'de>,
    /// The row of the node.
    pub at: &'r mut usize,
    /// How many aliases may still be followed.
    pub follows: &'r mut u64,
    pub path: Path<'r>,
    /// How many collections may still be gone into.
    pub depth: u64,
    /// The variant whose content the node is: its local tag is taken.
    pub variant: Option<Variant<'r>>,
}

/// A variant that a local tag named.
#[derive(Clone, Copy)]
pub(crate) struct Variant<'r> {
    /// The name of the enum, if a type asked for one.
    pub name: Option<&'static str>,
    pub tag: &'r str,
}

impl<'de, 'r> Reader<'de, 'r> {
    /// The row of the node.
    pub fn peek(&self) -> Result<&'r Row> {
        self.document.row(*self.at)
    }

    /// The row of the node, gone past.
    pub fn take(&mut self) -> Result<&'r Row> {
        let row = self.peek()?;
        *self.at += 1;
        self.variant = None;
        Ok(row)
    }

    /// A reader of the same with another path, and no tag taken.
    pub fn part<'s>(&'s mut self, path: impl FnOnce(&'s Path<'r>) -> Path<'s>) -> Reader<'de, 's> {
        Reader {
            document: self.document,
            at: self.at,
            follows: self.follows,
            path: path(&self.path),
            depth: self.depth,
            variant: None,
        }
    }

    /// A reader of the node that an alias stands for; `at` is room for its place.
    pub fn follow<'s>(&'s mut self, alias: &Row, at: &'s mut usize) -> Result<Reader<'de, 's>> {
        *self.follows = self.follows.checked_sub(1).ok_or_else(|| error::new(Fault::RepetitionLimitExceeded))?;
        *at = alias.link as usize;
        Ok(Reader {
            document: self.document,
            at,
            follows: self.follows,
            path: Path::Alias { parent: &self.path },
            depth: self.depth,
            variant: None,
        })
    }

    /// Goes past the node, whatever it is.
    pub fn skip(&mut self) -> Result<()> {
        let row = self.take()?;
        if let Kind::Sequence | Kind::Mapping = row.kind() {
            *self.at = row.link as usize;
            self.take()?;
        }
        Ok(())
    }

    /// The name of a local tag that no variant has taken.
    pub fn local_tag(&self, row: &Row) -> Option<&'r str> {
        if row.tag_kind() != TagKind::Local {
            return None;
        }
        let tag = self.document.loaded().tag(row);
        match tag.strip_prefix('!') {
            Some("") | None => Some(tag),
            name => name,
        }
    }

    /// The fault with the place and the way of the node, if it has none yet.
    #[cold]
    pub fn placed(&self, row: &Row, fault: Error) -> Error {
        error::placed(fault, row.place(), self.path)
    }

    /// Reads one level deeper.
    pub fn deeper<T>(&mut self, row: &Row, read: impl FnOnce(&mut Self) -> Result<T>) -> Result<T> {
        let depth = self.depth;
        match depth.checked_sub(1) {
            Some(less) => self.depth = less,
            None => return Err(error::new(Fault::RecursionLimitExceeded(row.place()))),
        }
        let value = read(self);
        self.depth = depth;
        value
    }

    /// Reads the elements behind the row of a sequence, and its end.
    pub fn sequence<V: Visitor<'de>>(&mut self, row: &Row, visitor: V) -> Result<V::Value> {
        let (value, len) = self.deeper(row, |reader| {
            let mut elements = SeqAccess { reader, len: 0, is_empty: false };
            let value = visitor.visit_seq(&mut elements)?;
            Ok((value, elements.len))
        })?;
        let mut rest = SeqAccess { reader: self, len, is_empty: false };
        while de::SeqAccess::next_element::<IgnoredAny>(&mut rest)?.is_some() {}
        let total = rest.len;
        self.take()?;
        if total == len {
            return Ok(value);
        }
        Err(de::Error::invalid_length(total, &Elements(len)))
    }

    /// Reads the pairs behind the row of a mapping, and its end.
    pub fn mapping<V: Visitor<'de>>(&mut self, row: &Row, visitor: V) -> Result<V::Value> {
        let (value, len) = self.deeper(row, |reader| {
            let mut pairs = MapAccess { reader, len: 0, is_empty: false, key: None };
            let value = visitor.visit_map(&mut pairs)?;
            Ok((value, pairs.len))
        })?;
        let mut rest = MapAccess { reader: self, len, is_empty: false, key: None };
        while de::MapAccess::next_entry::<IgnoredAny, IgnoredAny>(&mut rest)?.is_some() {}
        let total = rest.len;
        self.take()?;
        if total == len {
            return Ok(value);
        }
        Err(de::Error::invalid_length(total, &Entries(len)))
    }
}

struct Elements(usize);

impl Expected for Elements {
    fn fmt(&self, f: &mut fmt::Formatter) -> fmt::Result {
        match self.0 {
            1 => f.write_str("sequence of 1 element"),
            count => write!(f, "sequence of {count} elements"),
        }
    }
}

struct Entries(usize);

impl Expected for Entries {
    fn fmt(&self, f: &mut fmt::Formatter) -> fmt::Result {
        match self.0 {
            1 => f.write_str("map containing 1 entry"),
            count => write!(f, "map containing {count} entries"),
        }
    }
}

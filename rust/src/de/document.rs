//! Documents of a text.

use super::reader::Reader;
use crate::error::{self, Error, Fault, Result};
use crate::loaded::Loaded;
use crate::path::Path;
use crate::rows::{Kind, Row};
use std::sync::Arc;

/// The documents that are still to come.
pub(crate) struct Documents<'de> {
    loaded: Arc<Loaded<'de>>,
    // the row where the next one begins
    at: usize,
    // the row behind the last one
    end: usize,
}

/// A document: the rows of its one node, and the row that ends it.
pub(crate) struct Document<'de> {
    loaded: Arc<Loaded<'de>>,
    begin: usize,
    end: usize,
}

impl<'de> Documents<'de> {
    pub fn of(loaded: Loaded<'de>) -> Documents<'de> {
        let end = loaded.rows.len();
        Documents { loaded: Arc::new(loaded), at: 0, end }
    }

    /// This one alone.
    pub fn only(document: Document<'de>) -> Documents<'de> {
        Documents { loaded: document.loaded, at: document.begin, end: document.end + 1 }
    }
}

impl<'de> Iterator for Documents<'de> {
    type Item = Document<'de>;

    fn next(&mut self) -> Option<Document<'de>> {
        if self.at >= self.end {
            return None;
        }
        let begin = self.at;
        let end = self.loaded.rows.get(begin)?.link as usize;
        self.at = end + 1;
        Some(Document { loaded: Arc::clone(&self.loaded), begin, end })
    }
}

impl<'de> Document<'de> {
    /// What one call of a reader makes of it. A fault that cut it off is told where the call found none.
    pub fn read<T>(&self, read: impl for<'r> FnOnce(&mut Reader<'de, 'r>) -> Result<T>) -> Result<T> {
        let head = self.loaded.rows.get(self.begin).ok_or_else(|| error::new(Fault::EndOfStream))?;
        let (mut at, mut follows) = (self.begin + 1, head.high);
        let value = read(&mut Reader {
            document: self,
            at: &mut at,
            follows: &mut follows,
            path: Path::Root,
            depth: head.low,
            variant: None,
        })?;
        match self.ending() {
            Some(row) => Err(self.loaded.told(row)),
            None => Ok(value),
        }
    }

    pub fn loaded(&self) -> &Loaded<'de> {
        &self.loaded
    }

    /// A row of the node.
    pub fn row(&self, at: usize) -> Result<&Row> {
        match self.loaded.rows.get(at) {
            Some(row) if at < self.end => Ok(row),
            _ => Err(self.ended()),
        }
    }

    // The fault that cut the document off.
    fn ending(&self) -> Option<&Row> {
        self.loaded.rows.get(self.end).filter(|row| row.kind() == Kind::Fault)
    }

    // That the document ended.
    #[cold]
    fn ended(&self) -> Error {
        match self.ending() {
            Some(row) => self.loaded.told(row),
            None => error::new(Fault::EndOfStream),
        }
    }
}

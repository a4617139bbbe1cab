//! Writing of types: their calls become rows, which the library below prints.

use crate::door;
use crate::error::{self, Fault, Result};
use crate::rows::{Kind, Row};
use serde::ser::Serialize;
use std::io;
use std::mem;

mod calls;
mod parts;

/// Writes each value that is serialized into it as a document, once the value is whole.
///
/// ```
/// use serde::Serialize;
/// let mut text = Vec::new();
/// let mut serializer = panelhemp_yaml::Serializer::new(&mut text);
/// 80.serialize(&mut serializer)?;
/// 443.serialize(&mut serializer)?;
/// assert_eq!(text, b"80\n--- 443\n");
/// # Ok::<(), panelhemp_yaml::Error>(())
/// ```
pub struct Serializer<W> {
    writer: W,
    // of the document that is open, with the texts and tags that they name
    rows: Vec<Row>,
    texts: Vec<u8>,
    // how many collections are open
    open: usize,
    state: State,
    has_written: bool,
}

enum State {
    /// Nothing is to be minded.
    Nothing,
    /// A map of one pair was begun: its key may be a tag.
    CheckForTag,
    /// The same, under a tag.
    CheckForDuplicateTag,
    /// The next node has this tag.
    FoundTag(String),
    /// A map of one pair was a tag and its value, so it has no end of its own.
    AlreadyTagged,
}

impl<W> Serializer<W>
where
    W: io::Write,
{
    /// A serializer that writes to this writer.
    pub fn new(writer: W) -> Self {
        let (rows, texts) = (Vec::new(), Vec::new());
        Serializer { writer, rows, texts, open: 0, state: State::Nothing, has_written: false }
    }

    /// Flushes the writer.
    ///
    /// # Errors
    ///
    /// The writer's.
    pub fn flush(&mut self) -> Result<()> {
        self.writer.flush().map_err(|fault| error::new(Fault::Io(fault)))
    }

    /// The writer.
    ///
    /// # Errors
    ///
    /// The writer's, which is flushed first.
    pub fn into_inner(mut self) -> Result<W> {
        self.flush()?;
        Ok(self.writer)
    }

    fn row(&mut self, row: Row) -> Result<()> {
        if self.rows.len() == self.rows.capacity() {
            let more = self.rows.len().max(16);
            self.rows.try_reserve(more).map_err(|_| error::new(Fault::Memory))?;
        }
        self.rows.push(row);
        Ok(())
    }

    // Keeps a text, and answers where.
    fn keep(&mut self, text: &str) -> Result<(u64, u64)> {
        let at = self.texts.len();
        self.texts.try_reserve(text.len()).map_err(|_| error::new(Fault::Memory))?;
        self.texts.extend_from_slice(text.as_bytes());
        Ok((at as u64, text.len() as u64))
    }

    // The row of a node, with the tag that was found for it.
    fn node(&mut self, mut row: Row) -> Result<()> {
        match mem::replace(&mut self.state, State::Nothing) {
            State::FoundTag(tag) => {
                let tag = if tag.starts_with('!') { tag } else { format!("!{tag}") };
                row.tag_kind = 1;
                (row.tag_at, row.tag_len) = self.keep(&tag)?;
            }
            State::AlreadyTagged => self.state = State::AlreadyTagged,
            _ => {}
        }
        if self.rows.is_empty() {
            self.row(Row::of(Kind::Document))?;
        }
        self.row(row)
    }

    fn scalar(&mut self, row: Row) -> Result<()> {
        self.node(row)?;
        self.end_of_node()
    }

    fn text(&mut self, text: &str, row: Row) -> Result<()> {
        let (text_at, text_len) = self.keep(text)?;
        self.scalar(Row { text_at, text_len, ..row })
    }

    fn begin(&mut self, kind: Kind) -> Result<()> {
        self.node(Row::of(kind))?;
        self.open += 1;
        Ok(())
    }

    fn end(&mut self, kind: Kind) -> Result<()> {
        self.row(Row::of(kind))?;
        self.open = self.open.saturating_sub(1);
        self.end_of_node()
    }

    // Prints the document if its node is whole.
    fn end_of_node(&mut self) -> Result<()> {
        if self.open != 0 {
            return Ok(());
        }
        self.row(Row::of(Kind::DocumentEnd))?;
        // a later document is printed as the second of two, of which the first is left out
        const FIRST: &[u8] = b"null\n";
        let mut skip = 0;
        if self.has_written {
            let first = [Row::of(Kind::Document), Row::of(Kind::Null), Row::of(Kind::DocumentEnd)];
            self.rows.try_reserve(first.len()).map_err(|_| error::new(Fault::Memory))?;
            self.rows.splice(0..0, first);
            skip = FIRST.len();
        }
        let printed = door::print(&self.rows, &self.texts);
        self.rows.clear();
        self.texts.clear();
        let printed = printed?;
        self.has_written = true;
        self.writer.write_all(printed.get(skip..).unwrap_or(&[])).map_err(|fault| error::new(Fault::Io(fault)))
    }

    // The name of a variant with content is the tag of the content.
    fn variant(&mut self, variant: &'static str) -> Result<()> {
        if let State::FoundTag(_) = self.state {
            return Err(error::new(Fault::SerializeNestedEnum));
        }
        self.state = State::FoundTag(variant.to_owned());
        Ok(())
    }

    // A map of one pair was a tag after all: its start is taken back.
    fn tag(&mut self, tag: String) {
        self.rows.pop();
        self.open = self.open.saturating_sub(1);
        self.state = State::FoundTag(tag);
    }
}

/// Writes a value as YAML text.
///
/// # Errors
///
/// The value refuses, or has bytes or a variant with content in such a variant; the writer refuses; memory ran out.
/// Nothing is written but by a writer that then refuses.
pub fn to_writer<W, T>(writer: W, value: &T) -> Result<()>
where
    W: io::Write,
    T: ?Sized + Serialize,
{
    value.serialize(&mut Serializer::new(writer))
}

/// The YAML text of a value.
///
/// # Errors
///
/// As of [`to_writer`].
pub fn to_string<T>(value: &T) -> Result<String>
where
    T: ?Sized + Serialize,
{
    let mut text = Vec::new();
    to_writer(&mut text, value)?;
    String::from_utf8(text).map_err(|_| error::new(Fault::NoDocument))
}

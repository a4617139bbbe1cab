//! The rows of a text, and the texts that they name.

use crate::door;
use crate::error::{self, Error, Fault};
use crate::rows::{Kind, Row, Scalar};

/// The rows of a text, with what their ranges are of.
pub(crate) struct Loaded<'de> {
    source: Source<'de>,
    texts: String,
    pub rows: Vec<Row>,
}

enum Source<'de> {
    Lent(&'de str),
    Owned(String),
}

/// A text of a row.
#[derive(Clone, Copy)]
pub(crate) enum Text<'de, 'r> {
    /// It stands in the source, which is lent.
    Lent(&'de str),
    /// It stands elsewhere.
    Kept(&'r str),
}

impl<'de> Loaded<'de> {
    /// Of a text that is lent. Bytes that are no UTF-8 have one row of a document and one of its fault.
    pub fn of_slice(source: &'de [u8]) -> Result<Loaded<'de>, Error> {
        Loaded::new(source, Source::Lent(std::str::from_utf8(source).unwrap_or("")))
    }

    /// Of a text that is lent.
    pub fn of_str(source: &'de str) -> Result<Loaded<'de>, Error> {
        Loaded::new(source.as_bytes(), Source::Lent(source))
    }

    /// Of a text that is given.
    pub fn of_vec(source: Vec<u8>) -> Result<Loaded<'static>, Error> {
        let (rows, texts) = door::load(&source, likely_rows(&source))?;
        let source = Source::Owned(String::from_utf8(source).unwrap_or_default());
        Ok(Loaded { source, texts: utf8(texts)?, rows })
    }

    fn new(bytes: &[u8], source: Source<'de>) -> Result<Loaded<'de>, Error> {
        let (rows, texts) = door::load(bytes, likely_rows(bytes))?;
        Ok(Loaded { source, texts: utf8(texts)?, rows })
    }

    /// The text of a scalar or of a fault.
    pub fn text<'r>(&'r self, row: &Row) -> Text<'de, 'r> {
        let (at, len) = (row.text_at, row.text_len);
        match self.source {
            Source::Lent(source) if row.is_in_source() => Text::Lent(part(source, at, len)),
            Source::Owned(ref source) if row.is_in_source() => Text::Kept(part(source, at, len)),
            _ => Text::Kept(part(&self.texts, at, len)),
        }
    }

    /// The tag of a row.
    pub fn tag(&self, row: &Row) -> &str {
        part(&self.texts, row.tag_at, row.tag_len)
    }

    /// A fault's row as a fault.
    pub fn told(&self, row: &Row) -> Error {
        error::new(Fault::Text(self.text(row).as_str().to_owned(), Some(row.place())))
    }
}

impl<'r> Text<'_, 'r> {
    pub fn as_str(&self) -> &'r str
    where
        Self: 'r,
    {
        match *self {
            Text::Lent(text) => text,
            Text::Kept(text) => text,
        }
    }
}

// How many rows a text will mostly take, by the characters that part its nodes.
fn likely_rows(text: &[u8]) -> usize {
    let is_parting = |byte: u8| (byte == b'\n') | (byte == b',') | (byte == b':') | (byte == b'[') | (byte == b'{');
    // sums that fit a byte, so that many bytes are looked at in one step
    let sum_of = |part: &[u8]| part.iter().map(|byte| u8::from(is_parting(*byte))).sum::<u8>();
    let parting: usize = text.chunks(255).map(|part| usize::from(sum_of(part))).sum();
    parting + parting / 2 + 16
}

// A part of a text; nothing where there is none, which no row asks for.
fn part(text: &str, at: u64, len: u64) -> &str {
    let (at, len) = (at as usize, len as usize);
    text.get(at..at.saturating_add(len)).unwrap_or("")
}

fn utf8(texts: Vec<u8>) -> Result<String, Error> {
    String::from_utf8(texts).map_err(|_| error::new(Fault::NoDocument))
}

/// What a text is as a plain scalar, if it is one as it stands.
pub(crate) fn plain_scalar(text: &str) -> Result<Option<Scalar>, Error> {
    let loaded = Loaded::of_str(text)?;
    Ok(match loaded.rows.as_slice() {
        [_, row, _] if row.is_scalar() && row.is_plain() && row.text_len == text.len() as u64 => Some(row.scalar()),
        _ => None,
    })
}

/// The text of a float, and a line feed.
pub(crate) fn float_text(number: f64) -> Result<String, Error> {
    let rows = [Row::of(Kind::Document), Row::float(number), Row::of(Kind::DocumentEnd)];
    utf8(door::print(&rows, &[])?)
}

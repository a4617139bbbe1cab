//! Faults, with their places and ways.

use crate::path::Path;
use serde::{de, ser};
use std::fmt::{self, Debug, Display};
use std::io;
use std::sync::Arc;

/// What is wrong with a text or a value.
pub struct Error(Box<Fault>);

/// A result with the fault of this crate.
pub type Result<T> = std::result::Result<T, Error>;

/// The place of a fault.
#[derive(Debug, Clone, Copy, PartialEq, Eq)]
pub struct Location {
    index: usize,
    line: usize,
    column: usize,
}

impl Location {
    /// The place by its byte from 0, and its line and column from 0.
    pub(crate) fn new(index: u64, line: u64, column: u64) -> Location {
        let counted = |from_0: u64| from_0.saturating_add(1) as usize;
        Location { index: index as usize, line: counted(line), column: counted(column) }
    }

    /// The byte, from 0.
    pub fn index(&self) -> usize {
        self.index
    }

    /// The line, from 1.
    pub fn line(&self) -> usize {
        self.line
    }

    /// The column, from 1, counted in characters.
    pub fn column(&self) -> usize {
        self.column
    }

    fn is_start(&self) -> bool {
        self.line == 1 && self.column == 1
    }
}

/// The kinds of faults.
pub(crate) enum Fault {
    /// A message of serde or of a type, with a place and a way once they are known.
    Message(String, Option<(Location, String)>),
    /// A fault of the text, whose message tells its place.
    Text(String, Option<Location>),
    /// A reader or a writer failed.
    Io(io::Error),
    /// The text ended, or the document did.
    EndOfStream,
    /// One document was asked for.
    MoreThanOneDocument,
    /// Too many collections one within another.
    RecursionLimitExceeded(Location),
    /// Too many follows of aliases.
    RepetitionLimitExceeded,
    /// Bytes are not YAML.
    BytesUnsupported,
    /// A node has one tag at most.
    SerializeNestedEnum,
    /// What a merge key may not have; the text is the whole message.
    Merge(&'static str),
    /// A tag has to have a name.
    EmptyTag,
    /// A text is no number.
    FailedToParseNumber,
    /// Serializing calls came in an order that makes no document.
    NoDocument,
    /// Memory ran out.
    Memory,
    /// The library below is of another ABI.
    Version,
    /// One of several owners of a fault.
    Shared(Arc<Fault>),
}

/// A fault of a kind.
pub(crate) fn new(fault: Fault) -> Error {
    Error(Box::new(fault))
}

/// The place and way of a node, for a message that has none yet.
#[cold]
pub(crate) fn placed(mut error: Error, place: Location, path: Path) -> Error {
    if let Fault::Message(_, none @ None) = &mut *error.0 {
        *none = Some((place, path.to_string()));
    }
    error
}

impl Error {
    /// The place of the fault, if it has one.
    pub fn location(&self) -> Option<Location> {
        self.0.location()
    }

    /// The same fault, to be owned by several.
    pub(crate) fn shared(self) -> Arc<Fault> {
        match *self.0 {
            Fault::Shared(fault) => fault,
            fault => Arc::new(fault),
        }
    }
}

impl From<Arc<Fault>> for Error {
    fn from(fault: Arc<Fault>) -> Error {
        new(Fault::Shared(fault))
    }
}

impl Fault {
    fn location(&self) -> Option<Location> {
        match self {
            Fault::Message(_, Some((place, _))) | Fault::RecursionLimitExceeded(place) => Some(*place),
            Fault::Text(_, place) => *place,
            Fault::Shared(fault) => fault.location(),
            _ => None,
        }
    }

    // The message without the place; a text's own tells it.
    fn message(&self, f: &mut fmt::Formatter) -> fmt::Result {
        match self {
            Fault::Message(message, None) => f.write_str(message),
            Fault::Message(message, Some((_, path))) if path == "." => f.write_str(message),
            Fault::Message(message, Some((_, path))) => write!(f, "{path}: {message}"),
            Fault::Text(message, _) => f.write_str(message),
            Fault::Io(error) => Display::fmt(error, f),
            Fault::EndOfStream => f.write_str("EOF while parsing a value"),
            Fault::MoreThanOneDocument => {
                f.write_str("deserializing from YAML containing more than one document is not supported")
            }
            Fault::RecursionLimitExceeded(_) => f.write_str("recursion limit exceeded"),
            Fault::RepetitionLimitExceeded => f.write_str("repetition limit exceeded"),
            Fault::BytesUnsupported => {
                f.write_str("serialization and deserialization of bytes in YAML is not implemented")
            }
            Fault::SerializeNestedEnum => f.write_str("serializing nested enums in YAML is not supported yet"),
            Fault::Merge(message) => f.write_str(message),
            Fault::EmptyTag => f.write_str("empty YAML tag is not allowed"),
            Fault::FailedToParseNumber => f.write_str("failed to parse YAML number"),
            Fault::NoDocument => f.write_str("what was serialized is no YAML document"),
            Fault::Memory => f.write_str("out of memory"),
            Fault::Version => f.write_str("the archive yaml_c is of another version than this crate"),
            Fault::Shared(fault) => fault.message(f),
        }
    }

    fn tells_its_place(&self) -> bool {
        match self {
            Fault::Text(..) => true,
            Fault::Shared(fault) => fault.tells_its_place(),
            _ => false,
        }
    }

    fn source(&self) -> Option<&(dyn std::error::Error + 'static)> {
        match self {
            Fault::Io(error) => std::error::Error::source(error),
            Fault::Shared(fault) => fault.source(),
            _ => None,
        }
    }
}

impl Display for Fault {
    fn fmt(&self, f: &mut fmt::Formatter) -> fmt::Result {
        self.message(f)?;
        match self.location() {
            Some(place) if !place.is_start() && !self.tells_its_place() => {
                write!(f, " at line {} column {}", place.line, place.column)
            }
            _ => Ok(()),
        }
    }
}

impl Display for Error {
    fn fmt(&self, f: &mut fmt::Formatter) -> fmt::Result {
        Display::fmt(&self.0, f)
    }
}

impl Debug for Error {
    fn fmt(&self, f: &mut fmt::Formatter) -> fmt::Result {
        struct Message<'a>(&'a Fault);
        impl Display for Message<'_> {
            fn fmt(&self, f: &mut fmt::Formatter) -> fmt::Result {
                self.0.message(f)
            }
        }
        write!(f, "Error({:?}", Message(&self.0).to_string())?;
        if let Some(place) = self.location() {
            write!(f, ", line: {}, column: {}", place.line, place.column)?;
        }
        f.write_str(")")
    }
}

impl std::error::Error for Error {
    fn source(&self) -> Option<&(dyn std::error::Error + 'static)> {
        self.0.source()
    }
}

impl de::Error for Error {
    #[cold]
    fn custom<T: Display>(message: T) -> Error {
        new(Fault::Message(message.to_string(), None))
    }
}

impl ser::Error for Error {
    #[cold]
    fn custom<T: Display>(message: T) -> Error {
        new(Fault::Message(message.to_string(), None))
    }
}

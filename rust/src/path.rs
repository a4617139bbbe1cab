//! The way from the root to a node, as faults print it.

use std::fmt::{self, Display};

/// A way: `servers[2].name`, and `.` for the root.
#[derive(Clone, Copy)]
pub(crate) enum Path<'a> {
    /// The root.
    Root,
    /// An element of a sequence.
    Seq {
        /// The way of the sequence.
        parent: &'a Path<'a>,
        /// The place of the element, from 0.
        index: usize,
    },
    /// The value of a key that is a scalar.
    Map {
        /// The way of the mapping.
        parent: &'a Path<'a>,
        /// The text of the key.
        key: &'a str,
    },
    /// What an alias stands for.
    Alias {
        /// The way of the alias.
        parent: &'a Path<'a>,
    },
    /// The value of another key.
    Unknown {
        /// The way of the mapping.
        parent: &'a Path<'a>,
    },
}

impl Path<'_> {
    /// Whether it is the root, through aliases too.
    fn is_root(&self) -> bool {
        match self {
            Path::Root => true,
            Path::Alias { parent } => parent.is_root(),
            _ => false,
        }
    }
}

// What stands before a key: nothing at the root.
struct Before<'a>(&'a Path<'a>);

impl Display for Before<'_> {
    fn fmt(&self, f: &mut fmt::Formatter) -> fmt::Result {
        if self.0.is_root() {
            return Ok(());
        }
        write!(f, "{}.", self.0)
    }
}

impl Display for Path<'_> {
    fn fmt(&self, f: &mut fmt::Formatter) -> fmt::Result {
        match self {
            Path::Root => f.write_str("."),
            Path::Seq { parent, index } => write!(f, "{parent}[{index}]"),
            Path::Map { parent, key } => write!(f, "{}{key}", Before(parent)),
            Path::Alias { parent } => write!(f, "{parent}"),
            Path::Unknown { parent } => write!(f, "{}?", Before(parent)),
        }
    }
}

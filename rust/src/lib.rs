//! YAML for types of `serde`, with the names of `serde_yaml` 0.9, over a library whose safety and results are proved.
//!
//! What a text holds, which node an alias stands for, what each scalar is, and how a value is printed is decided in
//! the library below, which `src/door.rs` calls. This crate turns its rows into the calls of serde's visitors, and
//! the calls of serde's serializers into rows: that part is tested, not proved.
//!
//! ```
//! let port: std::collections::BTreeMap<String, u16> = panelhemp_yaml::from_str("web: 80\n")?;
//! assert_eq!(port["web"], 80);
//! assert_eq!(panelhemp_yaml::to_string(&port)?, "web: 80\n");
//! # Ok::<(), panelhemp_yaml::Error>(())
//! ```

#![deny(unsafe_code, unsafe_op_in_unsafe_fn)]
#![warn(missing_docs)]

mod de;
#[allow(unsafe_code)]
mod door;
mod error;
mod loaded;
pub mod mapping;
mod number;
mod path;
mod rows;
mod ser;
pub mod value;
pub mod with;

pub use crate::de::{from_reader, from_slice, from_str, Deserializer};
pub use crate::error::{Error, Location, Result};
pub use crate::mapping::Mapping;
pub use crate::number::Number;
pub use crate::ser::{to_string, to_writer, Serializer};
pub use crate::value::{from_value, to_value, Index, Sequence, Value};

//! Types and texts by which `panelhemp-yaml` and `serde_yaml` are compared.

pub mod loads;
pub mod random;
pub mod seen;
pub mod texts;
pub mod types;
pub mod values;

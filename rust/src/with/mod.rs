//! Variants as mappings of one pair, `exact: 80`, in place of tags, `!exact 80`.

mod read;
mod write;

/// How far variants are mappings.
#[derive(Clone, Copy)]
enum Reach {
    /// The value itself, if it is a variant.
    Here,
    /// What an optional holds, if that is a variant.
    Held,
    /// All that is in the value.
    Everywhere,
    /// None.
    Nowhere,
}

impl Reach {
    // For a part of the value.
    fn part(self) -> Reach {
        match self {
            Reach::Everywhere => Reach::Everywhere,
            _ => Reach::Nowhere,
        }
    }

    // For what an optional holds.
    fn held(self) -> Reach {
        match self {
            Reach::Held => Reach::Here,
            other => other.part(),
        }
    }

    fn is_on(self) -> bool {
        matches!(self, Reach::Here | Reach::Everywhere)
    }
}

// A serializer, a value, a deserializer, a visitor or an access, that has its variants as mappings.
struct Singleton<T> {
    inner: T,
    reach: Reach,
}

impl<T> Singleton<T> {
    fn part<U>(reach: Reach, inner: U) -> Singleton<U> {
        Singleton { inner, reach: reach.part() }
    }
}

macro_rules! module {
    ($(#[$doc:meta])* $name:ident $reach:ident) => {
        $(#[$doc])*
        pub mod $name {
            use super::{Reach, Singleton};
            use serde::{Deserialize, Deserializer, Serialize, Serializer};

            /// Writes the value.
            ///
            /// # Errors
            ///
            /// As of the serializer.
            pub fn serialize<T, S>(value: &T, serializer: S) -> Result<S::Ok, S::Error>
            where
                T: Serialize,
                S: Serializer,
            {
                value.serialize(Singleton { inner: serializer, reach: Reach::$reach })
            }

            /// Reads the value.
            ///
            /// # Errors
            ///
            /// As of the deserializer; or a mapping that names a variant has not one pair.
            pub fn deserialize<'de, T, D>(deserializer: D) -> Result<T, D::Error>
            where
                T: Deserialize<'de>,
                D: Deserializer<'de>,
            {
                T::deserialize(Singleton { inner: deserializer, reach: Reach::$reach })
            }
        }
    };
}

module! {
    /// For a field that is an enum.
    ///
    /// ```
    /// # use serde::{Deserialize, Serialize};
    /// #[derive(Serialize, Deserialize, PartialEq, Debug)]
    /// enum Size { Any, Exact(u32) }
    /// #[derive(Serialize, Deserialize, PartialEq, Debug)]
    /// struct Job {
    ///     #[serde(with = "panelhemp_yaml::with::singleton_map")]
    ///     size: Size,
    /// }
    /// let job: Job = panelhemp_yaml::from_str("size:\n  Exact: 80\n")?;
    /// assert_eq!(job, Job { size: Size::Exact(80) });
    /// assert_eq!(panelhemp_yaml::to_string(&job)?, "size:\n  Exact: 80\n");
    /// # Ok::<(), panelhemp_yaml::Error>(())
    /// ```
    singleton_map Here
}
module! {
    /// For a field that is an optional enum.
    singleton_map_optional Held
}
module! {
    /// For each enum in a field, or in a whole value.
    ///
    /// ```
    /// # use serde::{Deserialize, Serialize};
    /// #[derive(Serialize, Deserialize, PartialEq, Debug)]
    /// enum Size { Any, Exact(u32) }
    /// let text = panelhemp_yaml::Deserializer::from_str("[Any, Exact: 80]");
    /// let sizes: Vec<Size> = panelhemp_yaml::with::singleton_map_recursive::deserialize(text)?;
    /// assert_eq!(sizes, [Size::Any, Size::Exact(80)]);
    /// # Ok::<(), panelhemp_yaml::Error>(())
    /// ```
    singleton_map_recursive Everywhere
}

//! Comparisons of a value with what it may hold.

use super::Value;

impl PartialEq<str> for Value {
    fn eq(&self, other: &str) -> bool {
        self.as_str() == Some(other)
    }
}

impl PartialEq<&str> for Value {
    fn eq(&self, other: &&str) -> bool {
        self.as_str() == Some(*other)
    }
}

impl PartialEq<String> for Value {
    fn eq(&self, other: &String) -> bool {
        self.as_str() == Some(other)
    }
}

impl PartialEq<bool> for Value {
    fn eq(&self, other: &bool) -> bool {
        self.as_bool() == Some(*other)
    }
}

macro_rules! equal_number {
    ($($as_number:ident $wide:ty: $($kind:ty)*;)*) => {$($(
        impl PartialEq<$kind> for Value {
            fn eq(&self, other: &$kind) -> bool {
                self.$as_number() == Some(*other as $wide)
            }
        }

        impl PartialEq<$kind> for &Value {
            fn eq(&self, other: &$kind) -> bool {
                self.$as_number() == Some(*other as $wide)
            }
        }

        impl PartialEq<$kind> for &mut Value {
            fn eq(&self, other: &$kind) -> bool {
                self.$as_number() == Some(*other as $wide)
            }
        }
    )*)*};
}

equal_number! {
    as_i64 i64: i8 i16 i32 i64 isize;
    as_u64 u64: u8 u16 u32 u64 usize;
    as_f64 f64: f32 f64;
}

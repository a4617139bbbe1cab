//! The words of faults that this crate puts together are those of the library below, whose text is proved.

use panelhemp_yaml::{from_str, from_value, to_string, Error, Value};
use serde::de::{Deserialize, DeserializeOwned};
use serde::Serialize;
use std::collections::BTreeMap;

#[repr(C)]
#[derive(Default)]
struct Row {
    kinds: [u8; 8],
    ranges: [u64; 4],
    line: u64,
    column: u64,
    index: u64,
    values: [u64; 4],
}

extern "C" {
    #[allow(clippy::too_many_arguments)]
    fn yaml_c_fault_text(
        cause: u32,
        place: *const Row,
        words: *const u8,
        words_len: usize,
        path: *const u8,
        path_len: usize,
        out: *mut u8,
        out_room: usize,
        sizes: *mut [u64; 2],
    ) -> u32;
}

fn below(cause: u32, fault: &Error, words: &str, path: &str) -> String {
    let mut place = Row::default();
    if let Some(at) = fault.location() {
        (place.line, place.column, place.index) = (at.line() as u64 - 1, at.column() as u64 - 1, at.index() as u64);
    }
    let (mut out, mut sizes) = (vec![0; 1000], [0; 2]);
    // SAFETY: the declaration is the header's, and each pointer with its length is that of a slice or a value.
    let answer = unsafe {
        yaml_c_fault_text(
            cause,
            &place,
            words.as_ptr(),
            words.len(),
            path.as_ptr(),
            path.len(),
            out.as_mut_ptr(),
            out.len(),
            &mut sizes,
        )
    };
    assert_eq!(answer, 0);
    out.truncate(sizes[1] as usize);
    String::from_utf8(out).unwrap()
}

fn fault<T: DeserializeOwned + std::fmt::Debug>(text: &str) -> Error {
    from_str::<T>(text).unwrap_err()
}

#[derive(Debug)]
struct Bytes;

impl<'de> Deserialize<'de> for Bytes {
    fn deserialize<D: serde::Deserializer<'de>>(deserializer: D) -> Result<Bytes, D::Error> {
        struct Visitor;
        impl serde::de::Visitor<'_> for Visitor {
            type Value = Bytes;
            fn expecting(&self, f: &mut std::fmt::Formatter) -> std::fmt::Result {
                f.write_str("bytes")
            }
        }
        deserializer.deserialize_bytes(Visitor)
    }
}

#[test]
fn are_those_of_the_library_below() {
    let one = fault::<BTreeMap<String, Vec<u16>>>("a: [1]\nb: [1, x]\n");
    assert_eq!(one.to_string(), below(0, &one, "invalid type: string \"x\", expected u16", "b[1]"));
    let one = fault::<u16>("# at the root\nx\n");
    assert_eq!(one.to_string(), below(0, &one, "invalid type: string \"x\", expected u16", "."));
    let one = fault::<Vec<u16>>("x\n");
    assert_eq!(one.to_string(), below(0, &one, "invalid type: string \"x\", expected a sequence", "."));
    let one = from_value::<u16>("x".into()).unwrap_err();
    assert_eq!(one.to_string(), below(1, &one, "invalid type: string \"x\", expected u16", ""));
    let one = fault::<Value>(&"[".repeat(200));
    assert_eq!(one.to_string(), below(2, &one, "", ""));
    let one = fault::<Value>(&("a: &a [x]\n".to_owned() + "b: &b [*b, *b]\n"));
    assert!([below(2, &one, "", ""), below(3, &one, "", "")].contains(&one.to_string()));
    let one = fault::<u16>("");
    assert_eq!(one.to_string(), below(4, &one, "", ""));
    let one = fault::<u16>("--- 1\n--- 2\n");
    assert_eq!(one.to_string(), below(5, &one, "", ""));
    let one = fault::<Bytes>("x");
    assert_eq!(one.to_string(), below(6, &one, "", ""));
    #[derive(Serialize)]
    enum Size {
        Exact(Box<Size>),
        Pair(u8, u8),
    }
    let one = to_string(&Size::Exact(Box::new(Size::Pair(1, 2)))).unwrap_err();
    assert_eq!(one.to_string(), below(7, &one, "", ""));
}

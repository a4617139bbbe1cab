//! What values are written as. Texts are those of `serde_yaml` 0.9.34.

use panelhemp_yaml::{to_string, to_writer, Serializer};
use serde::Serialize;
use std::collections::BTreeMap;

#[derive(Serialize)]
enum Size {
    Any,
    Exact(u32),
    Pair(u8, u8),
    Range { low: i32, high: i32 },
    Inner(Box<Size>),
}

#[derive(Serialize)]
struct Server {
    name: String,
    port: u16,
    tags: Vec<String>,
    label: Option<char>,
    sizes: Vec<Size>,
}

#[test]
fn a_struct() {
    let sizes = vec![Size::Any, Size::Exact(3), Size::Pair(1, 2), Size::Range { low: -1, high: 2 }];
    let tags = vec!["a: b".to_owned(), "12".to_owned(), "two\nlines\n".to_owned(), String::new()];
    let server = Server { name: "web".to_owned(), port: 80, tags, label: Some('x'), sizes };
    let text = "name: web\nport: 80\ntags:\n- 'a: b'\n- '12'\n- |\n  two\n  lines\n- ''\nlabel: 'x'\nsizes:\n- Any\n\
                - !Exact 3\n- !Pair\n  - 1\n  - 2\n- !Range\n  low: -1\n  high: 2\n";
    assert_eq!(to_string(&server).unwrap(), text);
}

#[test]
fn scalars() {
    assert_eq!(to_string(&()).unwrap(), "null\n");
    assert_eq!(to_string(&true).unwrap(), "true\n");
    assert_eq!(to_string(&i64::MIN).unwrap(), "-9223372036854775808\n");
    assert_eq!(to_string(&u128::MAX).unwrap(), "340282366920938463463374607431768211455\n");
    assert_eq!(to_string(&i128::MIN).unwrap(), "-170141183460469231731687303715884105728\n");
    assert_eq!(to_string(&[1.5, 1000.0, 0.1, f64::INFINITY]).unwrap(), "- 1.5\n- 1000.0\n- 0.1\n- .inf\n");
    assert_eq!(to_string(&[0.1f32, -f32::INFINITY, f32::NAN]).unwrap(), "- 0.1\n- -.inf\n- .nan\n");
    assert_eq!(to_string("true").unwrap(), "'true'\n");
    assert_eq!(to_string("~").unwrap(), "'~'\n");
}

#[test]
fn collections_that_are_empty_or_have_one_pair() {
    assert_eq!(to_string(&Vec::<u8>::new()).unwrap(), "[]\n");
    assert_eq!(to_string(&BTreeMap::<u8, u8>::new()).unwrap(), "{}\n");
    assert_eq!(to_string(&BTreeMap::from([(1, 2)])).unwrap(), "1: 2\n");
    let key_of_one_pair = BTreeMap::from([(BTreeMap::from([(1, 2)]), 3)]);
    assert_eq!(to_string(&key_of_one_pair).unwrap(), "? 1: 2\n: 3\n");
}

#[test]
fn what_is_refused() {
    let inner = Size::Inner(Box::new(Size::Exact(1)));
    let fault = to_string(&inner).unwrap_err().to_string();
    assert_eq!(fault, "serializing nested enums in YAML is not supported yet");
    struct Bytes;
    impl Serialize for Bytes {
        fn serialize<S: serde::Serializer>(&self, serializer: S) -> Result<S::Ok, S::Error> {
            serializer.serialize_bytes(b"x")
        }
    }
    let fault = to_string(&Bytes).unwrap_err().to_string();
    assert_eq!(fault, "serialization and deserialization of bytes in YAML is not implemented");
    assert_eq!(to_string(&Size::Inner(Box::new(Size::Any))).unwrap(), "!Inner Any\n");
}

#[test]
fn documents_in_turn() {
    let mut text = Vec::new();
    let mut serializer = Serializer::new(&mut text);
    BTreeMap::from([("k", 107)]).serialize(&mut serializer).unwrap();
    BTreeMap::from([("J", 74), ("k", 107)]).serialize(&mut serializer).unwrap();
    "x".serialize(&mut serializer).unwrap();
    serializer.flush().unwrap();
    assert_eq!(serializer.into_inner().unwrap(), b"k: 107\n---\nJ: 74\nk: 107\n--- x\n");
}

#[test]
fn a_writer_that_fails() {
    struct Failing;
    impl std::io::Write for Failing {
        fn write(&mut self, _: &[u8]) -> std::io::Result<usize> {
            Err(std::io::Error::new(std::io::ErrorKind::Other, "no writing today"))
        }
        fn flush(&mut self) -> std::io::Result<()> {
            Ok(())
        }
    }
    assert_eq!(to_writer(Failing, &1).unwrap_err().to_string(), "no writing today");
}

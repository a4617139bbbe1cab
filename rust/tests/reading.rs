//! What types are read from texts.

use panelhemp_yaml::{from_reader, from_slice, from_str};
use serde::Deserialize;
use std::borrow::Cow;
use std::collections::BTreeMap;

#[derive(Debug, Deserialize, PartialEq)]
#[serde(rename_all = "lowercase")]
enum Size {
    Any,
    Exact(u32),
    Pair(u8, u8),
    Range { low: i32, high: i32 },
}

#[derive(Debug, Deserialize, PartialEq)]
struct Server<'a> {
    name: &'a str,
    port: u16,
    #[serde(default)]
    tags: Vec<Cow<'a, str>>,
    label: Option<String>,
    ratio: Option<f64>,
    size: Option<Size>,
}

#[test]
fn a_struct_of_its_fields() {
    let text = "name: web\nport: 0x50\ntags: [a, 'b c', \"d\\te\"]\nlabel: ~\nratio: 1.5\nsize: !exact 3\n";
    let server: Server = from_str(text).unwrap();
    let tags = vec![Cow::from("a"), Cow::from("b c"), Cow::from("d\te")];
    let expected = Server { name: "web", port: 80, tags, label: None, ratio: Some(1.5), size: Some(Size::Exact(3)) };
    assert_eq!(server, expected);
}

#[test]
fn texts_are_lent_where_they_stand_in_the_source() {
    let text = String::from("[plain, 'in quotes', \"as well\", \u{e9}, behind]");
    let texts: Vec<&str> = from_str(&text).unwrap();
    assert_eq!(texts, ["plain", "in quotes", "as well", "\u{e9}", "behind"]);
    let source = text.as_bytes().as_ptr_range();
    assert!(texts.iter().all(|one| source.contains(&one.as_ptr())));
}

#[test]
fn a_text_with_escapes_is_not_lent() {
    let fault = from_str::<&str>("\"a\\tb\"").unwrap_err().to_string();
    assert_eq!(fault, "invalid type: string \"a\\tb\", expected a borrowed string");
}

#[test]
fn a_reader_lends_nothing() {
    let texts: Vec<String> = from_reader(&b"[a, b]"[..]).unwrap();
    assert_eq!(texts, ["a", "b"]);
    assert_eq!(from_slice::<&str>(b"a").unwrap(), "a");
}

#[test]
fn a_failed_reader_is_a_fault() {
    struct Failing;
    impl std::io::Read for Failing {
        fn read(&mut self, _: &mut [u8]) -> std::io::Result<usize> {
            Err(std::io::Error::new(std::io::ErrorKind::Other, "no reading today"))
        }
    }
    assert_eq!(from_reader::<_, String>(Failing).unwrap_err().to_string(), "no reading today");
}

#[test]
fn integers_of_each_width() {
    assert_eq!(from_str::<i8>("-128").unwrap(), -128);
    assert_eq!(from_str::<u64>("18446744073709551615").unwrap(), u64::MAX);
    assert_eq!(from_str::<i64>("-0x8000000000000000").unwrap(), i64::MIN);
    assert_eq!(from_str::<u128>("340282366920938463463374607431768211455").unwrap(), u128::MAX);
    assert_eq!(from_str::<i128>("-170141183460469231731687303715884105728").unwrap(), i128::MIN);
    assert_eq!(from_str::<Vec<u8>>("[0o17, 0b11, +7, 0]").unwrap(), [15, 3, 7, 0]);
    assert!(from_str::<u8>("256").is_err());
    assert!(from_str::<u8>("017").is_err());
    assert!(from_str::<u8>("-0").is_err());
}

#[test]
fn floats() {
    let floats: Vec<f64> = from_str("[1, 017, .5, 5., 1e3, .inf, -.Inf, +.INF]").unwrap();
    assert_eq!(floats, [1.0, 17.0, 0.5, 5.0, 1000.0, f64::INFINITY, f64::NEG_INFINITY, f64::INFINITY]);
    assert!(from_str::<f64>(".nan").unwrap().is_nan());
    assert!(from_str::<f64>("1e400").is_err());
    assert!(from_str::<f64>("0x1F").is_err());
    assert_eq!(from_str::<f32>("0.1").unwrap(), 0.1);
}

#[test]
fn absent_optionals() {
    let map: BTreeMap<String, Option<String>> = from_str("a:\nb: ~\nc: null\nd: ''\ne: '~'\nf: !!null ~\n").unwrap();
    let held: Vec<_> = map.values().map(Option::as_deref).collect();
    assert_eq!(held, [None, None, None, Some(""), Some("~"), None]);
}

#[test]
fn aliases_stand_for_their_nodes() {
    let map: BTreeMap<String, Vec<u8>> = from_str("a: &x [1, 2]\nb: *x\n").unwrap();
    assert_eq!(map["b"], [1, 2]);
    let sizes: Vec<Size> = from_str("[&a !range {low: -1, high: 2}, *a, &b any, *b, !pair [1, 2]]").unwrap();
    let range = || Size::Range { low: -1, high: 2 };
    assert_eq!(sizes, [range(), range(), Size::Any, Size::Any, Size::Pair(1, 2)]);
}

#[test]
fn core_tags() {
    assert_eq!(from_str::<Vec<String>>("[!!str 1, !!int 2]").unwrap(), ["1", "2"]);
    assert_eq!(from_str::<Vec<i64>>("[!!int 3, !!str 1]").unwrap(), [3, 1]);
    assert_eq!(from_str::<i64>("!!int |-\n 5\n").unwrap(), 5);
    assert!(from_str::<bool>("!!bool 'true'").is_err());
}

#[test]
fn an_empty_node_is_an_empty_collection() {
    assert_eq!(from_str::<Vec<u8>>("").unwrap(), []);
    assert_eq!(from_str::<BTreeMap<u8, Vec<u8>>>("1:\n").unwrap()[&1], []);
}

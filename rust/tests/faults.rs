//! Faults: what they say, where, and on which way. Texts and places are those of `serde_yaml` 0.9.34.

use panelhemp_yaml::{from_slice, from_str, Deserializer};
use serde::de::IgnoredAny;
use serde::Deserialize;
use std::collections::BTreeMap;

#[derive(Debug, Deserialize)]
#[serde(deny_unknown_fields)]
#[allow(dead_code)]
struct Server {
    name: String,
    port: u16,
}

#[derive(Debug, Deserialize)]
#[allow(dead_code)]
enum Size {
    Any,
    Exact(u32),
}

fn fault<'de, T: Deserialize<'de> + std::fmt::Debug>(text: &'de str) -> String {
    from_str::<T>(text).unwrap_err().to_string()
}

#[test]
fn texts_places_and_ways() {
    let mapping = "servers:\n- name: a\n  port: 1\n- name: b\n  port: '8080'\n";
    assert_eq!(
        fault::<BTreeMap<String, Vec<Server>>>(mapping),
        "servers[1].port: invalid type: string \"8080\", expected u16 at line 5 column 9"
    );
    assert_eq!(fault::<Server>("name: a\n"), "missing field `port`");
    assert_eq!(
        fault::<Server>("name: a\nprt: 1\n"),
        "unknown field `prt`, expected `name` or `port` at line 2 column 1"
    );
    assert_eq!(
        fault::<BTreeMap<String, u16>>("a: 1\nb: 70000\n"),
        "b: invalid value: integer `70000`, expected u16 at line 2 column 4"
    );
    assert_eq!(fault::<(u8, u8)>("[1, 2, 3]"), "invalid length 3, expected sequence of 2 elements");
    assert_eq!(
        fault::<Vec<bool>>("- 1.50\n"),
        ".[0]: invalid type: floating point `1.5`, expected a boolean at line 1 column 3"
    );
    assert_eq!(fault::<Size>("{Exact: 1}"), "invalid type: map, expected a YAML tag starting with '!'");
    assert_eq!(
        fault::<Vec<i8>>("[!!int x]"),
        ".[0]: invalid value: string \"x\", expected an integer at line 1 column 2"
    );
    assert_eq!(
        fault::<u8>("--- 1\n--- 2\n"),
        "deserializing from YAML containing more than one document is not supported"
    );
    assert_eq!(fault::<String>(""), "EOF while parsing a value");
}

#[test]
fn faults_of_the_text() {
    assert_eq!(
        fault::<IgnoredAny>("a: [b"),
        "did not find expected ',' or ']' at line 2 column 1, while parsing a flow sequence at line 1 column 4"
    );
    assert_eq!(fault::<IgnoredAny>("- *a\n"), "unknown anchor at line 1 column 3");
    let fault = from_slice::<IgnoredAny>(b"a: \xff").unwrap_err();
    assert_eq!(fault.to_string(), "invalid leading UTF-8 octet at position 3");
}

#[test]
fn locations() {
    let place = |text| {
        let fault = from_str::<BTreeMap<String, u8>>(text).unwrap_err();
        fault.location().map(|place| (place.line(), place.column(), place.index()))
    };
    assert_eq!(place("a: 1\nb: x\n"), Some((2, 4, 8)));
    assert_eq!(place("@"), Some((1, 1, 0)));
    assert_eq!(place("a: 1\n--- 2\n"), None);
}

#[test]
fn debug_text() {
    let fault = from_str::<BTreeMap<String, u8>>("a: 1\nb: x\n").unwrap_err();
    assert_eq!(format!("{fault:?}"), "Error(\"b: invalid type: string \\\"x\\\", expected u8\", line: 2, column: 4)");
}

#[test]
fn nestings_and_follows_are_limited() {
    #[derive(Debug)]
    struct Deep;
    impl<'de> Deserialize<'de> for Deep {
        fn deserialize<D: serde::Deserializer<'de>>(deserializer: D) -> Result<Deep, D::Error> {
            Vec::<Deep>::deserialize(deserializer).map(|_| Deep)
        }
    }
    let nested = |count: usize| "[".repeat(count) + &"]".repeat(count);
    assert!(from_str::<Deep>(&nested(128)).is_ok());
    assert_eq!(fault::<Deep>(&nested(129)), "recursion limit exceeded at line 1 column 129");
    assert_eq!(fault::<Deep>("&a [*a]"), "recursion limit exceeded");
    let mut bomb = String::from("a: &a [x, x, x, x, x, x, x, x, x, x]\n");
    for (name, of) in ["ab", "bc", "cd", "de", "ef", "fg", "gh"].iter().map(|pair| pair.split_at(1)) {
        bomb += &format!("{of}: &{of} [*{name}, *{name}, *{name}, *{name}, *{name}, *{name}, *{name}, *{name}]\n");
    }
    assert!(fault::<panelhemp_yaml::Value>(&bomb).ends_with("repetition limit exceeded"));
}

#[test]
fn hostile_texts_are_answered_soon() {
    for text in ["[".repeat(50_000), "- ".repeat(50_000), "{a: ".repeat(50_000), "\"".repeat(50_001)] {
        assert!(from_str::<IgnoredAny>(&text).is_err() || text.starts_with('-'));
        assert!(from_str::<panelhemp_yaml::Value>(&text).is_err());
    }
    let aliases = "- &a 1\n".to_owned() + &"- *a\n".repeat(100_000);
    assert_eq!(from_str::<Vec<u8>>(&aliases).unwrap().len(), 100_001);
}

#[test]
fn a_failed_text_is_told_once_by_the_iterator() {
    let read: Vec<_> = Deserializer::from_str("1\n--- [").map(u8::deserialize).collect();
    assert_eq!(read.len(), 2);
    assert_eq!(*read[0].as_ref().unwrap(), 1);
    assert!(read[1].is_err());
}

#[test]
fn a_fault_goes_where_others_go() {
    fn is_fault<T: std::error::Error + Send + Sync + 'static>() {}
    is_fault::<panelhemp_yaml::Error>();
}

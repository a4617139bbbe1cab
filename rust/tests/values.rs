//! Values of any kind.

use panelhemp_yaml::value::{Tag, TaggedValue};
use panelhemp_yaml::{from_str, from_value, to_string, to_value, Mapping, Number, Sequence, Value};
use serde::{Deserialize, Serialize};
use std::collections::HashSet;

const TEXT: &str = "servers:\n- port: 80\n  on: true\n- !old\n  port: 1.5\n1: one\n~: none\n";

fn value() -> Value {
    from_str(TEXT).unwrap()
}

#[test]
fn parts_are_found() {
    let value = value();
    assert_eq!(value["servers"][0]["port"], 80);
    assert_eq!(value["servers"][0]["on"], true);
    assert_eq!(value["servers"][1]["port"], 1.5);
    assert_eq!(value[1], "one");
    assert_eq!(value[Value::Null], "none");
    assert!(value["nothing"]["at all"].is_null());
    assert_eq!(value.get("servers").and_then(Value::as_sequence).map(Sequence::len), Some(2));
    assert!(value.get(7).is_none());
    assert!(matches!(&value["servers"][1], Value::Tagged(tagged) if tagged.tag == "old" && tagged.tag == "!old"));
}

#[test]
fn parts_are_changed() {
    let mut value = value();
    value["servers"][0]["port"] = 81.into();
    value["made"]["here"] = "x".into();
    *value.get_mut("servers").unwrap().get_mut(1).unwrap() = Value::Null;
    let mapping = value.as_mapping_mut().unwrap();
    assert_eq!(mapping.shift_remove("servers").unwrap()[0]["port"], 81);
    assert!(mapping.contains_key("made"));
    assert_eq!(to_string(&value).unwrap(), "1: one\nnull: none\nmade:\n  here: x\n");
}

#[test]
#[should_panic(expected = "cannot access index 5 of YAML sequence of length 2")]
fn a_place_that_is_not_there_is_not_made() {
    value()["servers"][5] = Value::Null;
}

#[test]
fn written_and_read_again() {
    let value = value();
    let text = to_string(&value).unwrap();
    assert_eq!(text, "servers:\n- port: 80\n  on: true\n- !old\n  port: 1.5\n1: one\nnull: none\n");
    assert_eq!(from_str::<Value>(&text).unwrap(), value);
    assert_eq!(to_value(&value).unwrap(), value);
    assert_eq!(from_value::<Value>(value.clone()).unwrap(), value);
}

#[test]
fn debug_text() {
    let value: Value = from_str("[~, true, 1, 1.5, a, {b: 1}, !t x]").unwrap();
    let text = "Sequence [Null, Bool(true), Number(1), Number(1.5), String(\"a\"), Mapping {\"b\": Number(1)}, \
                TaggedValue { tag: !t, value: String(\"x\") }]";
    assert_eq!(format!("{value:?}"), text);
}

#[test]
fn types_of_values() {
    #[derive(Debug, Serialize, Deserialize, PartialEq)]
    enum Size {
        Any,
        Exact(u32),
        Pair(u8, u8),
        Range { low: i32 },
    }
    let sizes = vec![Size::Any, Size::Exact(1), Size::Pair(1, 2), Size::Range { low: -1 }];
    let value = to_value(&sizes).unwrap();
    assert_eq!(to_string(&value).unwrap(), to_string(&sizes).unwrap());
    assert_eq!(Vec::<Size>::deserialize(&value).unwrap(), sizes);
    assert_eq!(from_value::<Vec<Size>>(value).unwrap(), sizes);
    let fault = from_value::<Vec<u8>>(from_str("[1, x]").unwrap()).unwrap_err().to_string();
    assert_eq!(fault, "invalid type: string \"x\", expected u8");
}

#[test]
fn a_key_that_stands_twice() {
    let fault = from_str::<Value>("a: 1\nb: {c: 1, c: 2}\n").unwrap_err().to_string();
    assert_eq!(fault, "b: duplicate entry with key \"c\" at line 2 column 4");
}

#[test]
fn merge_keys() {
    let text = "base: &b {x: 1, y: 2}\nmore: &m {z: 3}\none: {<<: *b, y: 5}\ntwo: {<<: [*b, *m]}\n";
    let mut value: Value = from_str(text).unwrap();
    value.apply_merge().unwrap();
    assert_eq!(to_string(&value["one"]).unwrap(), "y: 5\nx: 1\n");
    assert_eq!(to_string(&value["two"]).unwrap(), "x: 1\ny: 2\nz: 3\n");
    let fault = from_str::<Value>("<<: 1").unwrap().apply_merge().unwrap_err().to_string();
    assert_eq!(fault, "expected a mapping or list of mappings for merging, but found scalar");
}

#[test]
fn numbers() {
    let number = |text: &str| text.parse::<Number>();
    assert_eq!(number("0x1f").unwrap().as_u64(), Some(31));
    assert_eq!(number("-5").unwrap().as_i64(), Some(-5));
    assert_eq!(number("1e3").unwrap().to_string(), "1000.0");
    assert!(number("x").is_err() && number("").is_err() && number("1 # one").is_err() && number("'1'").is_err());
    assert_eq!(Number::from(f64::NAN), Number::from(-f64::NAN));
    assert!(Number::from(1.5) > Number::from(7) && Number::from(-1) < Number::from(0));
    assert_eq!([Number::from(1.5).to_string(), Number::from(f64::INFINITY).to_string()], ["1.5", ".inf"]);
}

#[test]
fn values_are_keys_of_maps() {
    let set: HashSet<Value> = [Value::from(1.5), Value::from(1.5), value(), value()].into_iter().collect();
    assert_eq!(set.len(), 2);
    let one: Mapping = from_str("{a: 1, b: 2}").unwrap();
    let other: Mapping = from_str("{b: 2, a: 1}").unwrap();
    assert_eq!(one, other);
    assert_eq!(HashSet::from([one]).len() + HashSet::from([other]).len(), 2);
}

#[test]
fn tags() {
    let tagged = TaggedValue { tag: Tag::new("t"), value: "x".into() };
    assert_eq!(to_string(&Value::Tagged(Box::new(tagged.clone()))).unwrap(), "!t x\n");
    assert_eq!(from_str::<TaggedValue>("!t x").unwrap(), tagged);
    assert_eq!(TaggedValue::deserialize(&tagged).unwrap(), tagged);
    assert_eq!(TaggedValue::deserialize(tagged.clone()).unwrap(), tagged);
    assert_eq!(tagged.tag.to_string(), "!t");
    let twice = Value::Tagged(Box::new(TaggedValue { tag: Tag::new("a"), value: Value::Tagged(Box::new(tagged)) }));
    assert_eq!(to_string(&twice).unwrap_err().to_string(), "serializing nested enums in YAML is not supported yet");
}

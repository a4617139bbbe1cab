//! Variants as mappings of one pair.

use panelhemp_yaml::with::{singleton_map, singleton_map_optional, singleton_map_recursive};
use panelhemp_yaml::{from_str, to_string, Deserializer, Serializer};
use serde::{Deserialize, Serialize};

#[derive(Debug, Serialize, Deserialize, PartialEq)]
enum Size {
    Any,
    Exact(u32),
    Pair(u8, u8),
    Range { low: i32, high: i32 },
    Inner(Box<Size>),
}

#[derive(Debug, Serialize, Deserialize, PartialEq)]
struct Job {
    #[serde(with = "singleton_map")]
    size: Size,
    #[serde(with = "singleton_map_optional", default)]
    other: Option<Size>,
}

#[test]
fn a_field() {
    for (size, text) in [
        (Size::Any, "size: Any\nother: null\n"),
        (Size::Exact(3), "size:\n  Exact: 3\nother: null\n"),
        (Size::Pair(1, 2), "size:\n  Pair:\n  - 1\n  - 2\nother: null\n"),
        (Size::Range { low: -1, high: 2 }, "size:\n  Range:\n    low: -1\n    high: 2\nother: null\n"),
    ] {
        let job = Job { size, other: None };
        assert_eq!(to_string(&job).unwrap(), text);
        assert_eq!(from_str::<Job>(text).unwrap(), job);
    }
    let job: Job = from_str("size: Any\nother:\n  Exact: 1\n").unwrap();
    assert_eq!(job.other, Some(Size::Exact(1)));
    assert_eq!(to_string(&job).unwrap(), "size: Any\nother:\n  Exact: 1\n");
}

#[test]
fn what_is_no_mapping_of_one_pair() {
    let fault = |text| from_str::<Job>(text).unwrap_err().to_string();
    assert_eq!(
        fault("size: {Exact: 1, Any: 2}"),
        "size: invalid value: map, expected map with a single key at line 1 column 7"
    );
    assert_eq!(fault("size: {}"), "size: invalid value: map, expected map with a single key at line 1 column 7");
    assert_eq!(fault("size: [1]"), "size: invalid type: sequence, expected enum Size at line 1 column 7");
}

#[test]
fn everywhere() {
    let sizes = vec![Size::Any, Size::Inner(Box::new(Size::Range { low: 1, high: 2 }))];
    let mut text = Vec::new();
    singleton_map_recursive::serialize(&sizes, &mut Serializer::new(&mut text)).unwrap();
    let text = String::from_utf8(text).unwrap();
    assert_eq!(text, "- Any\n- Inner:\n    Range:\n      low: 1\n      high: 2\n");
    let read: Vec<Size> = singleton_map_recursive::deserialize(Deserializer::from_str(&text)).unwrap();
    assert_eq!(read, sizes);
}

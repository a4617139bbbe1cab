//! Reads or writes by one crate so many times, for tools that count instructions or memory:
//! `valgrind --tool=callgrind count ours read integers 1000 3`. The difference of two numbers of times is what the
//! times between them take. The words: `ours` or `original`; `read` or `write`; `integers`, `words`, `jobs`, `ignored`
//! or `value`, the last two of the text of `jobs`; how many of these; how many times.

use panelhemp_yaml_compare::loads::{integers, jobs, words, Job};
use serde::de::{DeserializeOwned, IgnoredAny};
use serde::Serialize;
use std::hint::black_box;

macro_rules! side {
    ($name:ident, $crate_name:ident) => {
        fn $name(call: &str, what: &str, count: usize, times: usize) {
            fn all<T: DeserializeOwned + Serialize>(call: &str, value: T, times: usize) {
                let text = $crate_name::to_string(&value).unwrap();
                for _ in 0..times {
                    match call {
                        "read" => drop(black_box($crate_name::from_str::<T>(black_box(&text)).unwrap())),
                        _ => drop(black_box($crate_name::to_string(black_box(&value)).unwrap())),
                    }
                }
            }
            let text = || $crate_name::to_string(&jobs(count)).unwrap();
            match what {
                "integers" => all::<Vec<i64>>(call, integers(count), times),
                "words" => all::<Vec<String>>(call, words(count), times),
                "jobs" => all::<Vec<Job>>(call, jobs(count), times),
                "ignored" => {
                    let text = text();
                    for _ in 0..times {
                        let _ = black_box($crate_name::from_str::<IgnoredAny>(&text).unwrap());
                    }
                }
                "value" => all::<$crate_name::Value>(call, $crate_name::from_str(&text()).unwrap(), times),
                _ => panic!("of what?"),
            }
        }
    };
}
side!(ours, panelhemp_yaml);
side!(original, serde_yaml);

fn main() {
    let words: Vec<String> = std::env::args().skip(1).collect();
    let [side, call, what, count, times] = words.as_slice() else { panic!("SIDE CALL WHAT COUNT TIMES") };
    let (count, times) = (count.parse().expect("a number"), times.parse().expect("a number"));
    match side.as_str() {
        "ours" => ours(call, what, count, times),
        _ => original(call, what, count, times),
    }
}

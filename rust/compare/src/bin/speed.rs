//! Times of reading and writing by both crates in one process: the least of some runs, sides by turns.
//! `speed [RUNS [SIZE]]`: on a machine that others use, take a small SIZE, as 2, and many runs.

use panelhemp_yaml_compare::loads::{integers, jobs, words};
use serde::de::{DeserializeOwned, IgnoredAny};
use serde::Serialize;
use std::hint::black_box;
use std::time::Instant;

fn time(runs: usize, mut ours: impl FnMut(), mut theirs: impl FnMut()) -> (f64, f64) {
    let mut least = (f64::MAX, f64::MAX);
    for _ in 0..runs {
        let start = Instant::now();
        ours();
        let middle = Instant::now();
        theirs();
        least = (least.0.min((middle - start).as_secs_f64()), least.1.min(middle.elapsed().as_secs_f64()));
    }
    least
}

fn told(name: &str, bytes: usize, (ours, theirs): (f64, f64)) {
    let rate = |time: f64| bytes as f64 / time / 1e6;
    println!(
        "{name}: {bytes} bytes, ours {:.2} ms ({:.0} MB/s), original {:.2} ms ({:.0} MB/s), ratio {:.2}",
        ours * 1e3,
        rate(ours),
        theirs * 1e3,
        rate(theirs),
        ours / theirs
    );
}

fn both<T: DeserializeOwned + Serialize>(name: &str, runs: usize, value: &T) {
    let text = serde_yaml::to_string(value).unwrap();
    let same = panelhemp_yaml::to_string(value).unwrap() == text;
    let reading = time(
        runs,
        || drop(black_box(panelhemp_yaml::from_str::<T>(&text).unwrap())),
        || drop(black_box(serde_yaml::from_str::<T>(&text).unwrap())),
    );
    told(&format!("read {name}"), text.len(), reading);
    let writing = time(
        runs,
        || drop(black_box(panelhemp_yaml::to_string(value).unwrap())),
        || drop(black_box(serde_yaml::to_string(value).unwrap())),
    );
    told(&format!("write {name}{}", if same { "" } else { " (texts differ)" }), text.len(), writing);
}

fn main() {
    let number =
        |n: usize, default: usize| std::env::args().nth(n).map_or(default, |word| word.parse().expect("a number"));
    let (runs, size) = (number(1, 15), number(2, 100));
    both("Vec<i64>", runs, &integers(1000 * size));
    both("Vec<String>", runs, &words(500 * size));
    let jobs = jobs(40 * size);
    both("Vec<struct of ten fields>", runs, &jobs);
    let text = serde_yaml::to_string(&jobs).unwrap();
    let skipped = time(
        runs,
        || {
            let _ = black_box(panelhemp_yaml::from_str::<IgnoredAny>(&text).unwrap());
        },
        || {
            let _ = black_box(serde_yaml::from_str::<IgnoredAny>(&text).unwrap());
        },
    );
    told("read IgnoredAny of it", text.len(), skipped);
    let values = time(
        runs,
        || drop(black_box(panelhemp_yaml::from_str::<panelhemp_yaml::Value>(&text).unwrap())),
        || drop(black_box(serde_yaml::from_str::<serde_yaml::Value>(&text).unwrap())),
    );
    told("read Value of it", text.len(), values);
    let (a, b) = (panelhemp_yaml::from_str(&text).unwrap(), serde_yaml::from_str(&text).unwrap());
    let (a, b): (panelhemp_yaml::Value, serde_yaml::Value) = (a, b);
    let written = time(
        runs,
        || drop(black_box(panelhemp_yaml::to_string(&a).unwrap())),
        || drop(black_box(serde_yaml::to_string(&b).unwrap())),
    );
    told("write Value of it", text.len(), written);
    let small = "name: web\nport: 80\ntags: [a, b]\nlabel: ~\n";
    let count = 100 * size;
    let small_times = time(
        runs,
        || {
            (0..count).for_each(|_| {
                let _ = black_box(panelhemp_yaml::from_str::<IgnoredAny>(small).unwrap());
            })
        },
        || {
            (0..count).for_each(|_| {
                let _ = black_box(serde_yaml::from_str::<IgnoredAny>(small).unwrap());
            })
        },
    );
    told("read small texts", small.len() * count, small_times);
}

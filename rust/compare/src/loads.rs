//! What times and instructions are taken of.

use crate::random::Random;
use serde::{Deserialize, Serialize};
use std::collections::BTreeMap;

/// A struct of ten fields.
#[derive(Serialize, Deserialize)]
pub struct Job {
    name: String,
    host: String,
    port: u16,
    is_on: bool,
    ratio: f64,
    tags: Vec<String>,
    limits: BTreeMap<String, u64>,
    owner: Option<String>,
    offset: i64,
    about: String,
}

/// Integers of one to nineteen digits.
pub fn integers(count: usize) -> Vec<i64> {
    let mut random = Random::of(7);
    (0..count).map(|_| (random.bits() >> random.below(63)) as i64).collect()
}

/// Texts of some words.
pub fn words(count: usize) -> Vec<String> {
    let mut random = Random::of(8);
    (0..count).map(|_| format!("word {} of some", random.below(1_000_000))).collect()
}

/// Structs.
pub fn jobs(count: usize) -> Vec<Job> {
    (0..count)
        .map(|n| Job {
            name: format!("server number {n}"),
            host: format!("10.0.{}.{}", n % 200, n % 7),
            port: (n % 60_000) as u16,
            is_on: n % 2 == 0,
            ratio: n as f64 / 7.0,
            tags: vec!["web".to_owned(), format!("zone-{}", n % 9), "it's".to_owned()],
            limits: [("cpu".to_owned(), n as u64), ("memory".to_owned(), n as u64 * 1000)].into(),
            owner: (n % 3 == 0).then(|| "someone".to_owned()),
            offset: -(n as i64),
            about: "a longer text: with some words in it, and a colon".to_owned(),
        })
        .collect()
}

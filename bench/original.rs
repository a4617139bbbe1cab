//! Times one task on the text of standard input by the original crate, as the port's program does: prints the least
//! number of nanoseconds of so many runs.

use serde::de::DeserializeOwned;
use serde::{Deserialize, Serialize};
use std::collections::BTreeMap;
use std::io::Read;
use std::time::Instant;

/// A configuration of ten fields.
#[derive(Serialize, Deserialize)]
struct Config {
    name: String,
    host: String,
    port: u16,
    workers: u32,
    debug: bool,
    root: String,
    timeout: u64,
    label: Option<String>,
    tags: Vec<String>,
    limits: BTreeMap<String, u64>,
}

fn read<'de, T: Deserialize<'de>>(text: &'de str) -> u128 {
    let start = Instant::now();
    drop(serde_yaml::from_str::<T>(text).expect("it is read"));
    start.elapsed().as_nanos()
}

fn read_documents(text: &str) -> u128 {
    let start = Instant::now();
    for document in serde_yaml::Deserializer::from_str(text) {
        i64::deserialize(document).expect("it is read");
    }
    start.elapsed().as_nanos()
}

fn print<T: DeserializeOwned + Serialize>(text: &str) -> u128 {
    let value: T = serde_yaml::from_str(text).expect("it is read");
    let start = Instant::now();
    drop(serde_yaml::to_string(&value).expect("it is printed"));
    start.elapsed().as_nanos()
}

fn time(task: &str, kind: &str, text: &str) -> Option<u128> {
    Some(match (task, kind) {
        ("read", "integers") => read::<Vec<i64>>(text),
        ("read", "texts") => read::<Vec<String>>(text),
        ("read", "lent") => read::<Vec<&str>>(text),
        ("read", "pairs") => read::<BTreeMap<String, i64>>(text),
        ("read", "lists") => read::<Vec<Vec<i64>>>(text),
        ("read", "any") => read::<serde_yaml::Value>(text),
        ("read", "config") => read::<Config>(text),
        ("read", "documents" | "streamed") => read_documents(text),
        ("print", "integers") => print::<Vec<i64>>(text),
        ("print", "texts") => print::<Vec<String>>(text),
        ("print", "pairs") => print::<BTreeMap<String, i64>>(text),
        ("print", "any") => print::<serde_yaml::Value>(text),
        ("print", "config") => print::<Config>(text),
        _ => return None,
    })
}

fn main() {
    let arguments: Vec<String> = std::env::args().skip(1).collect();
    let [task, kind, runs] = arguments.as_slice() else { return };
    let runs: u32 = runs.parse().expect("a number of runs");
    let mut text = String::new();
    std::io::stdin().read_to_string(&mut text).expect("a text");
    let times: Option<Vec<u128>> = (0..runs).map(|_| time(task, kind, &text)).collect();
    if let Some(least) = times.and_then(|times| times.into_iter().min()) {
        println!("{least}");
    }
}

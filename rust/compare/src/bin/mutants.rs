//! Reads and writes random texts by this crate alone, to be run under a tool that finds leaks and wrong accesses:
//! `valgrind --leak-check=full mutants SEED TEXTS`. `mutants big MEGABYTES` reads one text of that size, to be run with
//! little memory: `ulimit -v 200000`.

use panelhemp_yaml::{from_reader, from_slice, to_string, Deserializer, Value};
use panelhemp_yaml_compare::random::Random;
use panelhemp_yaml_compare::{seen::Seen, texts, types::Server, values};
use serde::de::IgnoredAny;
use serde::Deserialize;

fn main() {
    let word = |n: usize| std::env::args().nth(n).unwrap_or_default();
    let number = |n: usize| word(n).parse::<usize>().unwrap_or(1);
    if word(1) == "big" {
        let text = "- abcdef\n".repeat(number(2) * 1_000_000 / 9);
        println!("{:?}", from_slice::<IgnoredAny>(text.as_bytes()).map(drop));
        return;
    }
    let mut random = Random::of(number(1) as u64);
    let pool: Vec<String> = texts::SEEDS.iter().map(|text| (*text).to_owned()).collect();
    let (mut values, mut faults, mut bytes) = (0, 0, 0);
    for _ in 0..number(2) {
        let text = texts::text(&mut random, &pool);
        for document in Deserializer::from_slice(&text).take(5) {
            match Value::deserialize(document) {
                Ok(value) => {
                    values += 1;
                    bytes += to_string(&value).map_or(0, |text| text.len());
                }
                Err(fault) => {
                    faults += 1;
                    bytes += fault.to_string().len();
                }
            }
        }
        faults += usize::from(from_slice::<Vec<Server>>(&text).is_err());
        values += usize::from(from_reader::<_, Seen>(&text[..]).is_ok());
        bytes += to_string(&values::value(&mut random, 3)).map_or(0, |text| text.len());
    }
    println!("{values} values, {faults} faults, {bytes} bytes written");
}

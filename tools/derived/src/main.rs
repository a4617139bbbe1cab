//! Answers rows as `crates/derived_case` does, by Rust's serde and serde_yaml.

mod types;

use serde::de::DeserializeOwned;
use serde::{Deserialize, Serialize};
use serde_yaml::{from_slice, from_str, to_string, Error, Mapping, Number, Value};
use std::borrow::Cow;
use std::collections::{BTreeMap, BTreeSet, HashMap, HashSet, VecDeque};
use std::io::{self, Read, Write};
use std::panic::catch_unwind;
use types::*;

type Answer = Result<String, Error>;

// The most documents of a text. The original gives the parser's fault without end.
const DOCUMENTS: usize = 6;

fn answer<'a, T: Deserialize<'a> + Serialize>(text: &'a str) -> Answer {
    to_string(&from_str::<T>(text)?)
}

fn answer_of_slice<'a, T: Deserialize<'a> + Serialize>(text: &'a str) -> Answer {
    to_string(&from_slice::<T>(text.as_bytes())?)
}

fn answer_of_documents<'a, T: Deserialize<'a> + Serialize>(text: &'a str) -> Answer {
    answer_of_each::<T>(serde_yaml::Deserializer::from_str(text))
}

// The bytes that the letters of a text count, read document by document.
fn answer_of_stream<T: DeserializeOwned + Serialize>(text: &str) -> Answer {
    let bytes: Vec<u8> = text.chars().map(|letter| letter as u8).collect();
    answer_of_each::<T>(serde_yaml::Deserializer::from_slice(&bytes))
}

fn answer_of_each<'a, T: Deserialize<'a> + Serialize>(documents: serde_yaml::Deserializer<'a>) -> Answer {
    let mut answer = String::new();
    for document in documents.take(DOCUMENTS) {
        answer.push_str("--- ");
        match T::deserialize(document) {
            Ok(value) => answer.push_str(&to_string(&value)?),
            Err(fault) => answer.push_str(&format!("! {fault}\n")),
        }
    }
    Ok(answer)
}

fn renamed(text: &str) -> Answer {
    let mut server: Server = serde_yaml::from_str(text)?;
    server.name = "proxy".to_owned();
    serde_yaml::to_string(&server)
}

// Applies the merge keys of a value, those of its parts first: so what is merged is merged whole.
fn merge(value: &mut Value) -> Result<(), Error> {
    match value {
        Value::Sequence(items) => {
            for item in items {
                merge(item)?;
            }
        }
        Value::Mapping(pairs) => {
            for (_, part) in pairs.iter_mut() {
                merge(part)?;
            }
        }
        Value::Tagged(tagged) => merge(&mut tagged.value)?,
        _ => {}
    }
    value.apply_merge()
}

// What is read of such a value, by its text.
fn answer_of_merged<T: DeserializeOwned + Serialize>(text: &str) -> Answer {
    let mut value: Value = from_str(text)?;
    merge(&mut value)?;
    to_string(&from_str::<T>(&to_string(&value)?)?)
}

fn merged_once(text: &str) -> Answer {
    let mut value: Value = from_str(text)?;
    value.apply_merge()?;
    to_string(&value)
}

fn longest_name(text: &str) -> Answer {
    let mut longest = "";
    for document in serde_yaml::Deserializer::from_str(text) {
        let person = Person::deserialize(document)?;
        if person.name.len() > longest.len() {
            longest = person.name;
        }
    }
    Ok(longest.to_owned())
}

fn all_jobs(text: &str) -> Answer {
    let mut jobs: u32 = 0;
    for document in serde_yaml::Deserializer::from_str(text) {
        jobs = jobs.saturating_add(Service::deserialize(document)?.max_jobs);
    }
    to_string(&jobs)
}

fn count_services(text: &str) -> Answer {
    let mut count = 0u64;
    for document in serde_yaml::Deserializer::from_str(text) {
        Service::deserialize(document)?;
        count += 1;
    }
    to_string(&count)
}

fn answer_as(name: &str, text: &str) -> Answer {
    match name {
        "bool" => answer::<bool>(text),
        "i8" => answer::<i8>(text),
        "u8" => answer::<u8>(text),
        "i64" => answer::<i64>(text),
        "i64/stream" => answer_of_stream::<i64>(text),
        "u64" => answer::<u64>(text),
        "i128" => answer::<i128>(text),
        "u128" => answer::<u128>(text),
        "f32" => answer::<f32>(text),
        "f64" => answer::<f64>(text),
        "Weather" => answer::<Weather>(text),
        "Value" | "Value/events" => answer::<Value>(text),
        "Value/documents" => answer_of_documents::<Value>(text),
        "Vec<Value>" => answer::<Vec<Value>>(text),
        "Option<Value>" => answer::<Option<Value>>(text),
        "Mapping" => answer::<Mapping>(text),
        "Number" => answer::<Number>(text),
        "Parcel" => answer::<Parcel>(text),
        "Task" | "Task/events" => answer::<Task>(text),
        "Sign" => answer::<Sign>(text),
        "Either" => answer::<Either>(text),
        "Choice" => answer::<Choice>(text),
        "BTreeMap<String,Value>" => answer::<BTreeMap<String, Value>>(text),
        "Value:merged" => merged_once(text),
        "apply:Value" | "apply:Value/reader" => answer_of_merged::<Value>(text),
        "apply:Retry" => answer_of_merged::<Retry>(text),
        "apply:Vec<Retry>" | "apply:Vec<Retry>/reader" => answer_of_merged::<Vec<Retry>>(text),
        "apply:Plan" => answer_of_merged::<Plan>(text),
        "apply:BTreeMap<i64,bool>" => answer_of_merged::<BTreeMap<i64, bool>>(text),
        "apply:BTreeMap<String,BTreeMap<String,u8>>" => answer_of_merged::<BTreeMap<String, BTreeMap<String, u8>>>(text),
        "char" => answer::<char>(text),
        "()" => answer::<()>(text),
        "String" => answer::<String>(text),
        "&str" => answer::<&str>(text),
        "CowStr" => answer::<Cow<'_, str>>(text),
        "Option<u8>" => answer::<Option<u8>>(text),
        "Vec<u8>" => answer::<Vec<u8>>(text),
        "(u8,bool)" => answer::<(u8, bool)>(text),
        "BTreeMap<String,u8>" => answer::<BTreeMap<String, u8>>(text),
        "HashMap<String,u8>" => answer::<HashMap<String, u8>>(text),
        "(u8,)" => answer::<(u8,)>(text),
        "(u8,bool,char)" => answer::<(u8, bool, char)>(text),
        "(u8,bool,char,String)" => answer::<(u8, bool, char, String)>(text),
        "[u8;2]" => answer::<[u8; 2]>(text),
        "VecDeque<u8>" => answer::<VecDeque<u8>>(text),
        "HashSet<u8>" => answer::<HashSet<u8>>(text),
        "BTreeSet<String>" => answer::<BTreeSet<String>>(text),
        "BTreeMap<i64,bool>" => answer::<BTreeMap<i64, bool>>(text),
        "BTreeMap<bool,u8>" => answer::<BTreeMap<bool, u8>>(text),
        "BTreeMap<char,()>" => answer::<BTreeMap<char, ()>>(text),
        "HashMap<u16,Vec<Option<u8>>>" => answer::<HashMap<u16, Vec<Option<u8>>>>(text),
        "Box<Pair>" => answer::<Box<Pair>>(text),
        "Option<Option<u8>>" => answer::<Option<Option<u8>>>(text),
        "Vec<Option<Option<u8>>>" => answer::<Vec<Option<Option<u8>>>>(text),
        "Timeout" => answer::<Timeout>(text),
        "Backoff" => answer::<Backoff>(text),
        "Chain" => answer::<Chain>(text),
        "Service" | "Service/events" | "read_service" => answer::<Service>(text),
        "Service/slice" => answer_of_slice::<Service>(text),
        "Person" => answer::<Person<'_>>(text),
        "Person/documents" => answer_of_documents::<Person<'_>>(text),
        "longest_name" => longest_name(text),
        "all_jobs" => all_jobs(text),
        "count_services" => count_services(text),
        "renamed" => renamed(text),
        "Note" => answer::<Note<'_>>(text),
        "Setting" => answer::<Setting>(text),
        "Window" => answer::<Window>(text),
        "Mark" => answer::<Mark>(text),
        "Figure" => answer::<Figure>(text),
        "Vec<Figure>" => answer::<Vec<Figure>>(text),
        "Command" => answer::<Command>(text),
        "Step" => answer::<Step>(text),
        "Scalar" => answer::<Scalar>(text),
        "Vec<Scalar>" => answer::<Vec<Scalar>>(text),
        "BTreeMap<String,Scalar>" => answer::<BTreeMap<String, Scalar>>(text),
        "Nest" => answer::<Nest>(text),
        "Passed" => answer::<Passed>(text),
        "Metres" => answer::<Metres>(text),
        "Nothing" => answer::<Nothing>(text),
        "Pair" => answer::<Pair>(text),
        "Ends<i8>" => answer::<Ends<i8>>(text),
        "Ends<Option<Pair>>" => answer::<Ends<Option<Pair>>>(text),
        "Percent" => answer::<Percent>(text),
        "Drawing" | "Drawing/events" => answer::<Drawing>(text),
        "Singletons<Vec<Figure>>" => answer::<Singletons<Vec<Figure>>>(text),
        "Singletons<Deed>" => answer::<Singletons<Deed>>(text),
        "Singletons<Deed>/documents" => answer_of_documents::<Singletons<Deed>>(text),
        "Singletons<BTreeMap<String,Option<Deed>>>" => answer::<Singletons<BTreeMap<String, Option<Deed>>>>(text),
        "Singletons<Choice>" => answer::<Singletons<Choice>>(text),
        "Singletons<Weather>" => answer::<Singletons<Weather>>(text),
        _ => panic!("no such type"),
    }
}

// The text between quotes.
fn unquoted(quoted: &str) -> Option<String> {
    let mut letters = quoted.strip_prefix('"')?.strip_suffix('"')?.chars();
    let mut text = String::new();
    while let Some(letter) = letters.next() {
        text.push(match letter {
            '\\' => match letters.next()? {
                'n' => '\n',
                't' => '\t',
                'u' => {
                    let digits: String = letters.by_ref().take(4).collect();
                    char::from_u32(u32::from_str_radix(&digits, 16).ok()?)?
                }
                escaped => escaped,
            },
            plain => plain,
        });
    }
    Some(text)
}

fn answered(row: &str) -> String {
    match row.split_once(' ') {
        Some((name, quoted)) if name != "#" => match unquoted(quoted) {
            Some(text) => match catch_unwind(|| answer_as(name, &text)) {
                Ok(Ok(written)) => format!("{row}  => {written:?}\n"),
                Ok(Err(fault)) => format!("{row}  => ! {fault}\n"),
                Err(_) => format!("{row}  => panic\n"),
            },
            None => format!("{row}  => ? no text between quotes\n"),
        },
        _ => format!("{row}\n"),
    }
}

fn main() -> io::Result<()> {
    let mut rows = String::new();
    io::stdin().read_to_string(&mut rows)?;
    std::panic::set_hook(Box::new(|_| {}));
    let mut out = io::stdout().lock();
    for row in rows.lines() {
        out.write_all(answered(row).as_bytes())?;
    }
    out.flush()
}

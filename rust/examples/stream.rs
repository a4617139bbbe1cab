//! A stream of documents: each is read in turn, and those that are kept are written as a stream.

use panelhemp_yaml as serde_yaml;
use serde::{Deserialize, Serialize};
use std::error::Error;

#[derive(Debug, Deserialize, Serialize)]
struct Event<'a> {
    at: &'a str,
    #[serde(flatten)]
    what: What,
}

#[derive(Debug, Deserialize, Serialize)]
#[serde(tag = "kind", content = "with", rename_all = "lowercase")]
enum What {
    Started,
    Request(Request),
    Stopped,
}

#[derive(Debug, Deserialize, Serialize)]
struct Request {
    path: String,
    status: u16,
    #[serde(skip_serializing_if = "Option::is_none")]
    referrer: Option<String>,
}

fn main() -> Result<(), Box<dyn Error>> {
    let mut log = serde_yaml::Serializer::new(Vec::new());
    for document in serde_yaml::Deserializer::from_str(include_str!("stream.yaml")) {
        let event = Event::deserialize(document)?;
        println!("{event:?}");
        if matches!(&event.what, What::Request(request) if request.status < 400) {
            continue;
        }
        event.serialize(&mut log)?;
    }
    print!("{}", String::from_utf8(log.into_inner()?)?);

    // a document that is no event is refused, and one that is cut off is told
    for text in ["--- {at: now, kind: started}\n--- {at: then, kind: lost}\n", "--- {at: now, kind: started}\n--- ]\n"]
    {
        for document in serde_yaml::Deserializer::from_str(text) {
            match Event::deserialize(document) {
                Ok(event) => println!("{}", event.at),
                Err(fault) => {
                    println!("{fault}");
                    break;
                }
            }
        }
    }
    Ok(())
}

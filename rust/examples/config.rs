//! A configuration: it is read, changed and written, and a mistake in one is told with its place.

use panelhemp_yaml as serde_yaml;
use serde::{Deserialize, Serialize};
use std::collections::BTreeMap;
use std::error::Error;
use std::path::PathBuf;

#[derive(Debug, Deserialize, Serialize)]
#[serde(deny_unknown_fields)]
struct Config {
    listen: Vec<Listen>,
    timeout: f64,
    log: Level,
    #[serde(default)]
    labels: BTreeMap<String, String>,
    storage: Storage,
    greeting: String,
    #[serde(default, skip_serializing_if = "Option::is_none")]
    user: Option<String>,
}

#[derive(Debug, Deserialize, Serialize)]
#[serde(deny_unknown_fields)]
struct Listen {
    host: String,
    port: u16,
    #[serde(default, skip_serializing_if = "Option::is_none")]
    tls: Option<Tls>,
}

#[derive(Debug, Deserialize, Serialize)]
struct Tls {
    certificate: PathBuf,
    key: PathBuf,
}

#[derive(Debug, Deserialize, Serialize)]
#[serde(rename_all = "lowercase")]
enum Level {
    Info,
    Warn,
}

#[derive(Debug, Deserialize, Serialize)]
#[serde(rename_all = "lowercase")]
enum Storage {
    Memory,
    Disk { path: PathBuf, limit: u64 },
}

const MISTAKEN: &[&str] = &[
    "listen: []\ntimeout: soon\n",
    "listen:\n- {host: web, port: 70000}\n",
    "listen: []\ntimeout: 1\nlog: loud\n",
    "listen: []\ntimeout: 1\nlogs: info\n",
    "listen: [\n",
];

fn main() -> Result<(), Box<dyn Error>> {
    let mut config: Config = serde_yaml::from_str(include_str!("config.yaml"))?;
    config.listen.push(Listen { host: "localhost".to_owned(), port: 9090, tls: None });
    config.log = Level::Info;
    config.user = Some("service".to_owned());
    if let Storage::Disk { limit, .. } = &mut config.storage {
        *limit *= 2;
    }
    print!("{}", serde_yaml::to_string(&config)?);
    let memory = Config { storage: Storage::Memory, listen: Vec::new(), labels: BTreeMap::new(), ..config };
    print!("{}", serde_yaml::to_string(&memory)?);

    for text in MISTAKEN {
        let Err(fault) = serde_yaml::from_str::<Config>(text) else { continue };
        let place = fault.location().map(|place| (place.line(), place.column()));
        println!("{fault}: {place:?}");
    }
    Ok(())
}

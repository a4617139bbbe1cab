//! A Kubernetes manifest: it is read as a value, looked up, changed and written; a part of it is read as a type.

use panelhemp_yaml as serde_yaml;
use serde::Deserialize;
use serde_yaml::{Mapping, Value};
use std::collections::BTreeMap;
use std::error::Error;
use std::fmt::{self, Display, Formatter};

#[derive(Debug, Deserialize)]
#[serde(rename_all = "camelCase")]
struct Container {
    name: String,
    image: String,
    #[serde(default)]
    ports: Vec<Port>,
    #[serde(default)]
    resources: BTreeMap<String, BTreeMap<String, Quantity>>,
}

#[derive(Debug, Deserialize)]
#[serde(rename_all = "camelCase")]
struct Port {
    container_port: u16,
}

#[derive(Debug, Deserialize)]
#[serde(untagged)]
enum Quantity {
    Number(f64),
    Text(String),
}

impl Display for Quantity {
    fn fmt(&self, f: &mut Formatter) -> fmt::Result {
        match self {
            Quantity::Number(number) => write!(f, "{number}"),
            Quantity::Text(text) => f.write_str(text),
        }
    }
}

fn main() -> Result<(), Box<dyn Error>> {
    let mut manifest: Value = serde_yaml::from_str(include_str!("manifest.yaml"))?;
    manifest.apply_merge()?;
    println!(
        "{} of {}",
        manifest["kind"].as_str().unwrap_or("?"),
        manifest["metadata"]["name"].as_str().unwrap_or("?")
    );
    println!("{:?}, {:?}", manifest["spec"]["replicas"].as_u64(), manifest["status"].as_u64());

    manifest["spec"]["replicas"] = Value::from(3);
    let template = &mut manifest["spec"]["template"];
    let labels = template["metadata"]["labels"].as_mapping_mut().ok_or("no labels")?;
    labels.insert("version".into(), "1.11".into());
    println!("{labels:?}");
    for container in template["spec"]["containers"].as_sequence_mut().ok_or("no containers")? {
        if let Some(image) = container["image"].as_str().and_then(|image| image.strip_suffix(":1.10")) {
            container["image"] = Value::String(format!("{image}:1.11"));
        }
        let mut variable = Mapping::new();
        variable.insert("name".into(), "ZONE".into());
        variable.insert("value".into(), "no".into());
        match container.get_mut("env").and_then(Value::as_sequence_mut) {
            Some(variables) => variables.push(variable.into()),
            None => container["env"] = Value::Sequence(vec![variable.into()]),
        }
    }
    print!("{}", serde_yaml::to_string(&manifest)?);

    let containers: Vec<Container> =
        serde_yaml::from_value(manifest["spec"]["template"]["spec"]["containers"].clone())?;
    for container in &containers {
        let ports: Vec<u16> = container.ports.iter().map(|port| port.container_port).collect();
        println!("{} {} {ports:?}", container.name, container.image);
        for (of, quantities) in &container.resources {
            quantities.iter().for_each(|(name, quantity)| println!("  {of}.{name}: {quantity}"));
        }
    }
    Ok(())
}

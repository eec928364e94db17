//! SD-JWT VC credentials.

use crate::keys::sign;
use serde_json::{json, Map, Value};
use sha2::{Digest, Sha256};
use std::collections::{BTreeMap, HashSet};

/// A name or a place.
#[derive(Clone, PartialEq, Eq, PartialOrd, Ord)]
enum Step {
    Name(String),
    Place(u64),
}

fn url64(bytes: &[u8]) -> String {
    base64::encode_config(bytes, base64::URL_SAFE_NO_PAD)
}

/// What hides the parts at addresses, and the disclosures that it makes.
struct Hiding {
    numbers: BTreeMap<Vec<Step>, usize>,
    disclosures: Vec<String>,
    path: Vec<Step>,
}

impl Hiding {
    /// Makes the disclosure with this number, and gives its digest.
    fn disclose(&mut self, number: usize, parts: Vec<Value>) -> String {
        let mut list = vec![Value::String(url64(&(number as u128).to_be_bytes()))];
        list.extend(parts);
        let text = url64(Value::Array(list).to_string().as_bytes());
        let digest = url64(&Sha256::digest(text.as_bytes()));
        self.disclosures[number] = text;
        digest
    }

    /// The part at a step with what is below it hidden, and its number where it is hidden itself.
    fn part(&mut self, step: Step, value: &Value) -> (Value, Option<usize>) {
        self.path.push(step);
        let number = self.numbers.get(&self.path).copied();
        let inner = self.value(value);
        self.path.pop();
        (inner, number)
    }

    fn value(&mut self, value: &Value) -> Value {
        match value {
            Value::Array(list) => self.list(list),
            Value::Object(object) => self.object(object),
            plain => plain.clone(),
        }
    }

    fn list(&mut self, list: &[Value]) -> Value {
        let mut items = Vec::with_capacity(list.len());
        for (place, item) in list.iter().enumerate() {
            let (inner, number) = self.part(Step::Place(place as u64), item);
            items.push(match number {
                Some(number) => json!({ "...": self.disclose(number, vec![inner]) }),
                None => inner,
            });
        }
        Value::Array(items)
    }

    fn object(&mut self, object: &Map<String, Value>) -> Value {
        let mut members = Map::new();
        let mut digests = Vec::new();
        for (name, value) in object {
            let (inner, number) = self.part(Step::Name(name.clone()), value);
            match number {
                Some(number) => {
                    digests.push(self.disclose(number, vec![Value::String(name.clone()), inner]))
                }
                None => {
                    members.insert(name.clone(), inner);
                }
            }
        }
        if !digests.is_empty() {
            digests.sort();
            let digests = digests.into_iter().map(Value::String).collect();
            members.insert("_sd".to_owned(), Value::Array(digests));
        }
        Value::Object(members)
    }
}

fn addresses(spec: &Value) -> BTreeMap<Vec<Step>, usize> {
    let mut numbers = BTreeMap::new();
    for (number, address) in spec["hide"].as_array().expect("a list").iter().enumerate() {
        let steps = address.as_array().expect("a list").iter().map(|step| match step {
            Value::String(name) => Step::Name(name.clone()),
            place => Step::Place(place.as_u64().expect("a place")),
        });
        assert!(numbers.insert(steps.collect(), number).is_none(), "an address twice");
    }
    numbers
}

/// The claims, and what the credential says of itself.
fn payload(spec: &Value, issuer: &Value) -> Value {
    let mut members = spec["claims"].as_object().expect("an object").clone();
    if let Some(holder) = spec["holder"].as_str() {
        let jwk: Value = serde_json::from_str(&holder["jwk:".len()..]).expect("a JWK");
        members.insert("cnf".to_owned(), json!({ "jwk": jwk }));
    }
    for (name, from) in [("exp", "until"), ("nbf", "from")] {
        if let Some(moment) = spec.get(from) {
            members.insert(name.to_owned(), moment.clone());
        }
    }
    members.insert("vct".to_owned(), spec["kind"].clone());
    members.insert("iss".to_owned(), issuer.clone());
    Value::Object(members)
}

pub fn issue(spec: &Value) -> String {
    let name = spec["key"].as_str().expect("a name");
    let key: Value = serde_json::from_str(&name["kid:".len()..]).expect("issuer and key");
    let numbers = addresses(spec);
    let disclosures = vec![String::new(); numbers.len()];
    let mut hiding = Hiding { numbers, disclosures, path: Vec::new() };
    let payload = hiding.value(&payload(spec, &key[0]));
    let digests: HashSet<_> = hiding.disclosures.iter().collect();
    assert!(digests.len() == hiding.disclosures.len() && !hiding.disclosures.iter().any(String::is_empty));
    let header = json!({ "alg": "BENCH256", "kid": key[1], "typ": "dc+sd-jwt" });
    let input = url64(header.to_string().as_bytes()) + "." + &url64(payload.to_string().as_bytes());
    let mut text = input.clone() + "." + &url64(&sign(name, input.as_bytes())) + "~";
    for disclosure in &hiding.disclosures {
        text += disclosure;
        text.push('~');
    }
    text
}

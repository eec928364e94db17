//! SD-JWT credentials (RFC 9901; SD-JWT VC).

use crate::marks::{placeholder, Marks, Place};
use crate::{base64url, jws, Rule};
use serde_json::{Map, Value};
use sha2::{Digest, Sha256};
use std::collections::{HashMap, HashSet};

const MOST_DISCLOSURES: usize = 1_024;
const MOST_LEVELS: usize = 64;

struct Disclosure {
    name: Option<String>,
    value: Value,
}

/// The claim tree of a credential: its payload with each disclosure in its place.
pub fn read(text: &str) -> Result<Value, Rule> {
    let (message, rest) = text.split_once('~').ok_or(1)?;
    let jws = if rest.is_empty() || rest.ends_with('~') {
        jws::read(message).ok_or(2)?
    } else {
        return Err(1);
    };
    if !matches!(
        jws.header.get("typ").and_then(Value::as_str),
        Some("dc+sd-jwt" | "vc+sd-jwt")
    ) {
        return Err(3);
    }
    if jws
        .payload
        .get("_sd_alg")
        .map_or(false, |name| name != "sha-256")
    {
        return Err(4);
    }
    let texts: Vec<&str> = rest.split_terminator('~').collect();
    if texts.len() > MOST_DISCLOSURES {
        return Err(5);
    }
    let disclosures: Vec<Disclosure> = texts
        .iter()
        .map(|text| disclosure(text).ok_or(6))
        .collect::<Result<_, Rule>>()?;
    let digests: Vec<String> = texts
        .iter()
        .map(|text| base64url::encode(&Sha256::digest(text)))
        .collect();
    check_places(&jws.payload, &digests, &disclosures)?;

    let facts = check_facts(&jws.payload);
    let disclosed = digests.into_iter().zip(disclosures).collect();
    let tree = tree(jws.payload, disclosed)?;
    facts?;
    Ok(tree)
}

/// What a disclosure's text says.
fn disclosure(text: &str) -> Option<Disclosure> {
    let mut list: Vec<Value> = serde_json::from_slice(&base64url::decode(text)?).ok()?;
    let value = list.pop()?;
    let name = match list.as_slice() {
        [Value::String(_)] => None,
        [Value::String(_), Value::String(_)] => match list.pop() {
            Some(Value::String(name)) => Some(name),
            _ => None,
        },
        _ => return None,
    };
    Some(Disclosure { name, value })
}

/// The rules 7 to 13, on places and names.
fn check_places(
    payload: &Map<String, Value>,
    digests: &[String],
    disclosures: &[Disclosure],
) -> Result<(), Rule> {
    if disclosures
        .iter()
        .any(|d| matches!(d.name.as_deref(), Some("_sd" | "...")))
    {
        return Err(7);
    }
    let payload_marks = Marks::of_object(payload)?;
    let marks: Vec<Marks> = disclosures
        .iter()
        .map(|d| Marks::of(&d.value))
        .collect::<Result<_, Rule>>()?;

    let all_marks = || std::iter::once(&payload_marks).chain(&marks);
    let mut seen = HashSet::new();
    if !all_marks()
        .flat_map(|marks| &marks.digests)
        .all(|(digest, _)| seen.insert(*digest))
    {
        return Err(9);
    }
    let index: HashMap<&str, usize> = digests.iter().map(String::as_str).zip(0..).collect();
    if index.len() < digests.len() || count_reached(&index, &payload_marks, &marks) < digests.len()
    {
        return Err(10);
    }
    let find = |digest: &str| index.get(digest).map(|place| &disclosures[*place]);
    for (digest, place) in all_marks().flat_map(|marks| &marks.digests) {
        if find(digest).map_or(false, |d| d.name.is_some() != (*place == Place::Object)) {
            return Err(11);
        }
    }
    let disclosed_names = |object: &Map<String, Value>| -> Vec<&str> {
        let digests = object
            .get("_sd")
            .and_then(Value::as_array)
            .into_iter()
            .flatten();
        digests
            .filter_map(|digest| find(digest.as_str()?)?.name.as_deref())
            .collect()
    };
    for object in all_marks().flat_map(|marks| &marks.objects) {
        let mut names = HashSet::new();
        if !disclosed_names(object)
            .into_iter()
            .all(|name| names.insert(name) && !object.contains_key(name))
        {
            return Err(12);
        }
    }
    let reserved = ["iss", "nbf", "exp", "cnf", "vct", "status", "_sd_alg"];
    if disclosed_names(payload)
        .iter()
        .any(|name| reserved.contains(name))
    {
        return Err(13);
    }
    Ok(())
}

/// How many disclosures are reached from the payload. No digest stands in two places.
fn count_reached(index: &HashMap<&str, usize>, payload: &Marks, marks: &[Marks]) -> usize {
    let mut count = 0;
    let mut waiting = vec![payload];
    while let Some(from) = waiting.pop() {
        for place in from
            .digests
            .iter()
            .filter_map(|(digest, _)| index.get(digest))
        {
            count += 1;
            waiting.push(&marks[*place]);
        }
    }
    count
}

/// The payload with each disclosure in its place; rule 14 is broken where it is too deep.
fn tree(
    mut payload: Map<String, Value>,
    mut disclosed: HashMap<String, Disclosure>,
) -> Result<Value, Rule> {
    payload.remove("_sd_alg");
    let mut tree = Value::Object(payload);
    fill(&mut tree, MOST_LEVELS, &mut disclosed)?;
    Ok(tree)
}

/// Puts the disclosures of a value into their places.
fn fill(
    value: &mut Value,
    levels: usize,
    disclosed: &mut HashMap<String, Disclosure>,
) -> Result<(), Rule> {
    match value {
        Value::Array(_) | Value::Object(_) if levels == 0 => Err(14),
        Value::Array(list) => fill_list(list, levels - 1, disclosed),
        Value::Object(object) => fill_object(object, levels - 1, disclosed),
        _ => Ok(()),
    }
}

fn fill_list(
    list: &mut Vec<Value>,
    levels: usize,
    disclosed: &mut HashMap<String, Disclosure>,
) -> Result<(), Rule> {
    for mut element in std::mem::take(list) {
        if let Some(digest) = placeholder(&element) {
            match disclosed.remove(digest) {
                Some(disclosure) => element = disclosure.value,
                None => continue,
            }
        }
        fill(&mut element, levels, disclosed)?;
        list.push(element);
    }
    Ok(())
}

fn fill_object(
    object: &mut Map<String, Value>,
    levels: usize,
    disclosed: &mut HashMap<String, Disclosure>,
) -> Result<(), Rule> {
    let digests = object.remove("_sd");
    for (_, value) in object.iter_mut() {
        fill(value, levels, disclosed)?;
    }
    for digest in digests
        .iter()
        .filter_map(Value::as_array)
        .flatten()
        .filter_map(Value::as_str)
    {
        if let Some(Disclosure {
            name: Some(name),
            mut value,
        }) = disclosed.remove(digest)
        {
            fill(&mut value, levels, disclosed)?;
            object.insert(name, value);
        }
    }
    Ok(())
}

/// The rules 15 to 17, on type, dates and holder.
fn check_facts(payload: &Map<String, Value>) -> Result<(), Rule> {
    if !payload.get("vct").map_or(false, Value::is_string) {
        return Err(15);
    }
    let is_moment = |name| payload.get(name).map_or(true, Value::is_u64);
    if !is_moment("nbf") || !is_moment("exp") {
        return Err(16);
    }
    match payload.get("cnf") {
        None => Ok(()),
        Some(Value::Object(cnf)) if cnf.get("jwk").map_or(true, is_key) => Ok(()),
        Some(_) => Err(17),
    }
}

fn is_key(jwk: &Value) -> bool {
    jwk.is_object() && has_whole_numbers(jwk)
}

fn has_whole_numbers(value: &Value) -> bool {
    match value {
        Value::Number(number) => !number.is_f64(),
        Value::Array(list) => list.iter().all(has_whole_numbers),
        Value::Object(object) => object.values().all(has_whole_numbers),
        _ => true,
    }
}

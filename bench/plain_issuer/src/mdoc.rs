//! Mobile documents.

use crate::cbor::{bytes, embedded, head, list, map, named, tagged, text};
use crate::keys::sign;
use serde_json::{Map, Value};
use sha2::{Digest, Sha256};

const BENCH256: u64 = 70255;

fn unhex(text: &str) -> Vec<u8> {
    let digit = |c: u8| (c as char).to_digit(16).expect("a digit") as u8;
    text.as_bytes().chunks(2).map(|pair| digit(pair[0]) << 4 | digit(pair[1])).collect()
}

fn element(value: &Value) -> Vec<u8> {
    match value {
        Value::Null => vec![0xf6],
        Value::Bool(truth) => vec![0xf4 + u8::from(*truth)],
        Value::Number(number) => match number.as_u64() {
            Some(n) => head(0, n),
            None => head(1, !number.as_i64().expect("an integer") as u64),
        },
        Value::String(string) => text(string),
        Value::Array(items) => list(&items.iter().map(element).collect::<Vec<_>>()),
        Value::Object(object) => standing(object),
    }
}

fn standing(object: &Map<String, Value>) -> Vec<u8> {
    if object.len() == 1 {
        if let Some(Value::String(hex)) = object.get("$bytes") {
            return bytes(&unhex(hex));
        }
        if let Some(Value::String(date)) = object.get("$date") {
            return tagged(1004, &text(date));
        }
    }
    map(object.iter().map(|(name, value)| (text(name), element(value))).collect())
}

fn item(number: u64, name: &str, value: &Value) -> Vec<u8> {
    embedded(&named(&[
        ("random", bytes(&u128::from(number).to_be_bytes())),
        ("digestID", head(0, number)),
        ("elementValue", element(value)),
        ("elementIdentifier", text(name)),
    ]))
}

/// The date and time of a second from 1970, in UTC.
fn date_time(seconds: u64) -> String {
    let (days, second) = ((seconds / 86_400) as i64, seconds % 86_400);
    // Days from the first of March of the year 0, in eras of 400 years.
    let shifted = days + 719_468;
    let (era, day) = (shifted / 146_097, shifted % 146_097);
    let year_of_era = (day - day / 1_460 + day / 36_524 - day / 146_096) / 365;
    let day_of_year = day - (365 * year_of_era + year_of_era / 4 - year_of_era / 100);
    let month = (5 * day_of_year + 2) / 153;
    let day_of_month = day_of_year - (153 * month + 2) / 5 + 1;
    let month = if month < 10 { month + 3 } else { month - 9 };
    let year = era * 400 + year_of_era + i64::from(month <= 2);
    let (hour, minute) = (second / 3600, second / 60 % 60);
    format!("{year:04}-{month:02}-{day_of_month:02}T{hour:02}:{minute:02}:{:02}Z", second % 60)
}

fn moment(value: &Value) -> Vec<u8> {
    tagged(0, &text(&date_time(value.as_u64().expect("a second"))))
}

pub fn issue(spec: &Value) -> String {
    let key = spec["key"].as_str().expect("a name");
    let mut number = 0;
    let mut name_spaces = Vec::new();
    let mut digests = Vec::new();
    for (name, elements) in spec["claims"].as_object().expect("an object") {
        let mut items = Vec::new();
        let mut own = Vec::new();
        for (identifier, value) in elements.as_object().expect("an object") {
            let item = item(number, identifier, value);
            own.push((head(0, number), bytes(&Sha256::digest(&item))));
            items.push(item);
            number += 1;
        }
        name_spaces.push((text(name), list(&items)));
        digests.push((text(name), map(own)));
    }
    let holder = unhex(&spec["holder"].as_str().expect("a name")["cose:".len()..]);
    let object = named(&[
        ("version", text("1.0")),
        ("digestAlgorithm", text("SHA-256")),
        ("docType", text(spec["kind"].as_str().expect("a text"))),
        ("valueDigests", map(digests)),
        ("deviceKeyInfo", named(&[("deviceKey", holder)])),
        (
            "validityInfo",
            named(&[
                ("signed", moment(&spec["from"])),
                ("validFrom", moment(&spec["from"])),
                ("validUntil", moment(&spec["until"])),
            ]),
        ),
    ]);
    let payload = embedded(&object);
    let protected = bytes(&map(vec![(head(0, 1), head(1, BENCH256))]));
    let message = list(&[text("Signature1"), protected.clone(), bytes(&[]), bytes(&payload)]);
    let unprotected = map(vec![(head(0, 4), bytes(&unhex(&key["mkid:".len()..])))]);
    let auth = list(&[protected, unprotected, bytes(&payload), bytes(&sign(key, &message))]);
    let issued = named(&[("nameSpaces", map(name_spaces)), ("issuerAuth", auth)]);
    base64::encode_config(issued, base64::URL_SAFE_NO_PAD)
}

//! `plain_requests` prints what `request_check` prints, for requests that break no rule: it decodes a signed
//! request with `base64`, parses it with `serde_json`, and compares its signature.

use serde_json::Value;
use sha2::{Digest, Sha256};
use std::collections::HashMap;
use std::io::Read;

fn decoded(text: &str) -> Vec<u8> {
    base64::decode_config(text, base64::URL_SAFE_NO_PAD).expect("base64url")
}

fn text_at<'a>(value: &'a Value, name: &str) -> &'a str {
    value[name].as_str().expect("a text")
}

fn unhex(text: &str) -> Vec<u8> {
    let digit = |c: u8| (c as char).to_digit(16).expect("a digit") as u8;
    text.as_bytes().chunks(2).map(|pair| digit(pair[0]) << 4 | digit(pair[1])).collect()
}

/// The line that is printed for a request.
fn answer(line: &str, keys: &HashMap<&str, Vec<u8>>, clients: &HashMap<&str, &str>) -> String {
    let (message, signature) = line.rsplit_once('.').expect("a signature");
    let (header, payload) = message.split_once('.').expect("a payload");
    let header: Value = serde_json::from_slice(&decoded(header)).expect("a header");
    let payload: Value = serde_json::from_slice(&decoded(payload)).expect("a payload");
    assert_eq!(text_at(&header, "typ"), "oauth-authz-req+jwt");
    let client = text_at(&payload, "client_id");
    let mut hash = Sha256::new();
    hash.update(&keys[clients[client]]);
    hash.update(message);
    assert_eq!(hash.finalize().as_slice(), decoded(signature));
    assert_eq!(text_at(&payload, "aud"), "https://self-issued.me/v2");
    assert_eq!(text_at(&payload, "response_type"), "vp_token");
    assert_eq!(text_at(&payload, "response_mode"), "direct_post");
    let queries = payload["dcql_query"]["credentials"].as_array().expect("queries").len();
    let (nonce, uri) = (text_at(&payload, "nonce"), text_at(&payload, "response_uri"));
    format!("asked {queries} {client} {nonce} {uri} {}\n", text_at(&payload, "state"))
}

fn main() {
    let mut text = String::new();
    std::io::stdin().read_to_string(&mut text).expect("an input");
    let (keys, rest) = text.split_once("\n\n").expect("keys");
    let (clients, requests) = rest.split_once("\n\n").expect("clients");
    let keys = keys.lines().map(|line| (&line[70..], unhex(&line[5..69]))).collect();
    let clients = clients.lines().map(|line| line.split_once(' ').expect("a client")).collect();
    for line in requests.lines() {
        print!("{}", answer(line, &keys, &clients));
    }
}

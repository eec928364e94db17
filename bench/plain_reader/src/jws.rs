//! Signed messages in compact serialization (JWS; RFC 7515).

use crate::base64url;
use serde_json::{Map, Value};

pub struct Jws {
    pub header: Map<String, Value>,
    pub payload: Map<String, Value>,
}

/// Reads a message, or says that it breaks one of the six rules. No signature is judged.
pub fn read(text: &str) -> Option<Jws> {
    let parts: Vec<&str> = text.split('.').collect();
    let [header, payload, signature] = parts[..] else {
        return None;
    };
    let header = json_object(&base64url::decode(header)?)?;
    let payload = base64url::decode(payload)?;
    base64url::decode(signature)?;
    let alg = header.get("alg")?.as_str()?;
    if alg == "none" || header.contains_key("crit") {
        return None;
    }
    let payload = json_object(&payload)?;
    Some(Jws { header, payload })
}

fn json_object(bytes: &[u8]) -> Option<Map<String, Value>> {
    match serde_json::from_slice(bytes) {
        Ok(Value::Object(object)) => Some(object),
        _ => None,
    }
}

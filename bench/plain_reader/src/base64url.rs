//! base64url without padding (RFC 4648), by which a sequence of bytes has exactly one text.

/// The bytes that a text stands for.
pub fn decode(text: &str) -> Option<Vec<u8>> {
    // The crate takes padding where it is not asked for.
    if text.ends_with('=') {
        return None;
    }
    base64::decode_config(text, base64::URL_SAFE_NO_PAD).ok()
}

pub fn encode(bytes: &[u8]) -> String {
    base64::encode_config(bytes, base64::URL_SAFE_NO_PAD)
}

//! CBOR in deterministic encoding.

pub fn head(major: u8, n: u64) -> Vec<u8> {
    let top = major << 5;
    match n {
        0..=23 => vec![top | n as u8],
        24..=0xff => vec![top | 24, n as u8],
        0x100..=0xffff => [&[top | 25][..], &(n as u16).to_be_bytes()].concat(),
        0x1_0000..=0xffff_ffff => [&[top | 26][..], &(n as u32).to_be_bytes()].concat(),
        _ => [&[top | 27][..], &n.to_be_bytes()].concat(),
    }
}

pub fn text(text: &str) -> Vec<u8> {
    [&head(3, text.len() as u64), text.as_bytes()].concat()
}

pub fn bytes(bytes: &[u8]) -> Vec<u8> {
    [&head(2, bytes.len() as u64), bytes].concat()
}

pub fn list(items: &[Vec<u8>]) -> Vec<u8> {
    [head(4, items.len() as u64), items.concat()].concat()
}

pub fn map(mut pairs: Vec<(Vec<u8>, Vec<u8>)>) -> Vec<u8> {
    pairs.sort();
    let mut written = head(5, pairs.len() as u64);
    for (key, value) in pairs {
        written.extend(key);
        written.extend(value);
    }
    written
}

pub fn named(pairs: &[(&str, Vec<u8>)]) -> Vec<u8> {
    map(pairs.iter().map(|(name, value)| (text(name), value.clone())).collect())
}

pub fn tagged(tag: u64, item: &[u8]) -> Vec<u8> {
    [&head(6, tag), item].concat()
}

/// An encoded item, embedded as a byte string.
pub fn embedded(item: &[u8]) -> Vec<u8> {
    tagged(24, &bytes(item))
}

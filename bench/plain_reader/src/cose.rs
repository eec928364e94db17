//! Signed messages in CBOR (COSE_Sign1; RFC 9052).

use crate::cbor::{read_one, Item};

const LEVELS: usize = 32;
const ALGORITHM: u64 = 1;
const CRITICAL: u64 = 2;

/// The payload of a message that has it inside, or nothing where one of the five rules is broken. No signature is judged.
pub fn payload<'a>(item: &Item<'a>) -> Option<&'a [u8]> {
    let [protected, unprotected, payload, signature] = item.tagged(18).unwrap_or(item).list()?
    else {
        return None;
    };
    unprotected.map()?;
    signature.bytes()?;
    let protected = read_one(protected.bytes()?, LEVELS)?;
    if !matches!(
        protected.label(ALGORITHM)?,
        Item::Unsigned(_) | Item::Negative(_)
    ) {
        return None;
    }
    if protected.label(CRITICAL).is_some() || unprotected.label(CRITICAL).is_some() {
        return None;
    }
    payload.bytes()
}

//! Mobile documents: the IssuerSigned of ISO/IEC 18013-5.

use crate::cbor::{read_one, Item, Tagged};
use crate::date::is_date;
use crate::query::{Path, Step};
use crate::{cose, Rule};
use sha2::{Digest, Sha256};
use std::collections::HashMap;

const LEVELS: usize = 32;
const MOST_ITEMS: usize = 1_024;
const ENCODED: u64 = 24;
const DATE: u64 = 0;

/// The claim tree of a document: its namespaces, in each the elements by their names.
pub struct Document<'a>(HashMap<&'a str, HashMap<&'a str, Item<'a>>>);

impl Document<'_> {
    /// Whether a path of two names leads to an element.
    pub fn has_hit(&self, path: &Path) -> bool {
        match path.steps() {
            [Step::Member(space), Step::Member(element)] => self
                .0
                .get(space.as_str())
                .map_or(false, |elements| elements.contains_key(element.as_str())),
            _ => false,
        }
    }
}

/// The digests that the issuer signed, by namespace and number.
type Digests<'a> = HashMap<&'a str, HashMap<u64, &'a [u8]>>;

/// An item of a namespace.
struct Element<'a> {
    name: &'a str,
    value: Item<'a>,
    number: u64,
    encoding: &'a [u8],
}

/// Reads a document by the thirteen rules.
pub fn read(bytes: &[u8]) -> Result<Document<'_>, Rule> {
    let document = read_one(bytes, LEVELS).ok_or(1)?;
    let spaces = tagged_spaces(&document).ok_or(2)?;
    let issuer_auth = document.get("issuerAuth").ok_or(2)?;
    let signed = signed_object(cose::payload(issuer_auth).ok_or(3)?).ok_or(4)?;
    let digests = digests(&signed).ok_or(4)?;
    check_signed(&signed)?;
    if spaces.iter().map(|(_, items)| items.len()).sum::<usize>() > MOST_ITEMS {
        return Err(9);
    }
    let spaces = read_spaces(spaces).ok_or(10)?;
    tree(spaces, &digests)
}

/// A list of namespaces.
type Spaces<'a, T> = Vec<(&'a str, Vec<T>)>;

/// The namespaces, in each the items under their tag.
fn tagged_spaces<'a, 'i>(document: &'i Item<'a>) -> Option<Spaces<'a, &'i Tagged<'a>>> {
    document.map()?;
    let Some(spaces) = document.get("nameSpaces") else {
        return Some(Vec::new());
    };
    let spaces = spaces.map()?.iter().map(|(name, items)| {
        let items = items.list()?.iter().map(|item| match item {
            Item::Tag(tagged) if tagged.number == ENCODED && tagged.content.bytes().is_some() => {
                Some(&**tagged)
            }
            _ => None,
        });
        Some((name.text()?, items.collect::<Option<_>>()?))
    });
    spaces.collect()
}

/// The mobile security object that a payload encodes, which has the members that rule 4 asks for but for the digests.
fn signed_object(payload: &[u8]) -> Option<Item<'_>> {
    let signed = read_one(read_one(payload, LEVELS)?.tagged(ENCODED)?.bytes()?, LEVELS)?;
    signed.get("digestAlgorithm")?.text()?;
    signed.get("docType")?.text()?;
    signed.get("validityInfo")?.map()?;
    Some(signed)
}

fn digests<'a>(signed: &Item<'a>) -> Option<Digests<'a>> {
    let spaces = signed
        .get("valueDigests")?
        .map()?
        .iter()
        .map(|(name, digests)| {
            let digests = digests
                .map()?
                .iter()
                .map(|(number, digest)| Some((number.unsigned()?, digest.bytes()?)));
            Some((name.text()?, digests.collect::<Option<_>>()?))
        });
    spaces.collect()
}

/// The rules 5 to 8, on the version, the hash, the dates and the device's key.
fn check_signed(signed: &Item) -> Result<(), Rule> {
    let text = |name| signed.get(name).and_then(Item::text);
    if text("version") != Some("1.0") {
        return Err(5);
    }
    if text("digestAlgorithm") != Some("SHA-256") {
        return Err(6);
    }
    let validity = signed.get("validityInfo").ok_or(7)?;
    for name in ["validFrom", "validUntil"] {
        let date = validity
            .get(name)
            .and_then(|date| date.tagged(DATE)?.text());
        if !date.map_or(false, is_date) {
            return Err(7);
        }
    }
    let key = signed
        .get("deviceKeyInfo")
        .and_then(|info| info.get("deviceKey")?.map());
    if !key.map_or(false, |entries| entries.iter().all(is_key_entry)) {
        return Err(8);
    }
    Ok(())
}

fn is_key_entry((name, value): &(Item, Item)) -> bool {
    matches!(name, Item::Unsigned(_) | Item::Negative(_) | Item::Text(_))
        && matches!(
            value,
            Item::Unsigned(_) | Item::Negative(_) | Item::Text(_) | Item::Bytes(_) | Item::Bool
        )
}

fn read_spaces<'a>(spaces: Spaces<'a, &Tagged<'a>>) -> Option<Spaces<'a, Element<'a>>> {
    let spaces = spaces.into_iter().map(|(name, items)| {
        let elements = items.into_iter().map(element).collect::<Option<_>>()?;
        Some((name, elements))
    });
    spaces.collect()
}

fn element<'a>(tagged: &Tagged<'a>) -> Option<Element<'a>> {
    let item = read_one(tagged.content.bytes()?, LEVELS)?;
    let number = item.get("digestID")?.unsigned()?;
    item.get("random")?.bytes()?;
    let name = item.get("elementIdentifier")?.text()?;
    let value = into_member(item, "elementValue")?;
    Some(Element {
        name,
        value,
        number,
        encoding: tagged.encoding,
    })
}

fn into_member<'a>(item: Item<'a>, name: &str) -> Option<Item<'a>> {
    match item {
        Item::Map(entries) => entries
            .into_iter()
            .find(|(key, _)| key.text() == Some(name))
            .map(|(_, value)| value),
        _ => None,
    }
}

/// The tree of the elements, by the rules 11 to 13.
fn tree<'a>(spaces: Spaces<'a, Element<'a>>, digests: &Digests) -> Result<Document<'a>, Rule> {
    let mut tree = HashMap::new();
    let mut broken = None;
    for (space, elements) in spaces {
        let mut named = HashMap::new();
        for element in elements {
            match digests
                .get(space)
                .and_then(|digests| digests.get(&element.number))
            {
                None => broken = Some(12),
                Some(digest) if Sha256::digest(element.encoding)[..] != **digest => {
                    broken = broken.or(Some(13))
                }
                Some(_) => {}
            }
            if named.insert(element.name, element.value).is_some() {
                return Err(11);
            }
        }
        tree.insert(space, named);
    }
    broken.map_or(Ok(Document(tree)), Err)
}

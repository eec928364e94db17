//! CBOR (RFC 8949).

use std::collections::HashSet;

pub enum Item<'a> {
    Unsigned(u64),
    /// -1 less this number.
    Negative(u64),
    Bytes(&'a [u8]),
    Text(&'a str),
    List(Vec<Item<'a>>),
    Map(Vec<(Item<'a>, Item<'a>)>),
    Tag(Box<Tagged<'a>>),
    Bool,
    Null,
    /// Another simple value or a floating-point number.
    Other,
}

pub struct Tagged<'a> {
    pub number: u64,
    pub content: Item<'a>,
    /// The bytes of tag and content.
    pub encoding: &'a [u8],
}

/// The one item that fills the bytes, if they are one of at most so many levels.
pub fn read_one(bytes: &[u8], levels: usize) -> Option<Item<'_>> {
    let mut reader = Reader { bytes, place: 0 };
    let item = reader.item(levels)?;
    (reader.place == bytes.len()).then_some(item)
}

impl<'a> Item<'a> {
    pub fn text(&self) -> Option<&'a str> {
        match self {
            Item::Text(text) => Some(text),
            _ => None,
        }
    }

    pub fn bytes(&self) -> Option<&'a [u8]> {
        match self {
            Item::Bytes(bytes) => Some(bytes),
            _ => None,
        }
    }

    pub fn unsigned(&self) -> Option<u64> {
        match self {
            Item::Unsigned(number) => Some(*number),
            _ => None,
        }
    }

    pub fn list(&self) -> Option<&[Item<'a>]> {
        match self {
            Item::List(items) => Some(items),
            _ => None,
        }
    }

    pub fn map(&self) -> Option<&[(Item<'a>, Item<'a>)]> {
        match self {
            Item::Map(entries) => Some(entries),
            _ => None,
        }
    }

    /// The content of an item with this tag.
    pub fn tagged(&self, number: u64) -> Option<&Item<'a>> {
        match self {
            Item::Tag(tagged) if tagged.number == number => Some(&tagged.content),
            _ => None,
        }
    }

    /// The value under a text in a map.
    pub fn get(&self, name: &str) -> Option<&Item<'a>> {
        let entry = self
            .map()?
            .iter()
            .find(|(key, _)| key.text() == Some(name))?;
        Some(&entry.1)
    }

    /// The value under a whole number from 0 in a map.
    pub fn label(&self, label: u64) -> Option<&Item<'a>> {
        let entry = self
            .map()?
            .iter()
            .find(|(key, _)| key.unsigned() == Some(label))?;
        Some(&entry.1)
    }
}

/// What makes two keys of a map equal, whatever heads spell them.
#[derive(PartialEq, Eq, Hash)]
enum Key<'a> {
    Unsigned(u64),
    Negative(u64),
    Bytes(&'a [u8]),
    Text(&'a str),
    /// The encoding of any other key.
    Encoded(&'a [u8]),
}

/// The major type, the additional information and the argument of a head; no argument where the length is indefinite.
struct Head {
    major: u8,
    info: u8,
    argument: Option<u64>,
}

struct Reader<'a> {
    bytes: &'a [u8],
    place: usize,
}

impl<'a> Reader<'a> {
    fn take(&mut self, count: u64) -> Option<&'a [u8]> {
        let end = self.place.checked_add(usize::try_from(count).ok()?)?;
        let taken = self.bytes.get(self.place..end)?;
        self.place = end;
        Some(taken)
    }

    fn head(&mut self) -> Option<Head> {
        let first = self.take(1)?[0];
        let (major, info) = (first >> 5, first & 31);
        let argument = match info {
            0..=23 => Some(u64::from(info)),
            24..=27 => {
                let bytes = self.take(1 << (info - 24))?;
                Some(
                    bytes
                        .iter()
                        .fold(0, |number, byte| number << 8 | u64::from(*byte)),
                )
            }
            31 => None,
            _ => return None,
        };
        Some(Head {
            major,
            info,
            argument,
        })
    }

    fn item(&mut self, levels: usize) -> Option<Item<'a>> {
        let start = self.place;
        let head = self.head()?;
        match head.major {
            0 => Some(Item::Unsigned(head.argument?)),
            1 => Some(Item::Negative(head.argument?)),
            2 => Some(Item::Bytes(self.take(head.argument?)?)),
            3 => Some(Item::Text(
                std::str::from_utf8(self.take(head.argument?)?).ok()?,
            )),
            4 => self.list(head.argument, levels.checked_sub(1)?),
            5 => self.map(head.argument, levels.checked_sub(1)?),
            6 => {
                let number = head.argument?;
                let content = self.item(levels.checked_sub(1)?)?;
                let encoding = &self.bytes[start..self.place];
                Some(Item::Tag(Box::new(Tagged {
                    number,
                    content,
                    encoding,
                })))
            }
            _ => simple(head),
        }
    }

    fn list(&mut self, count: Option<u64>, levels: usize) -> Option<Item<'a>> {
        let mut items = Vec::with_capacity(room(count));
        while self.goes_on(count, items.len())? {
            items.push(self.item(levels)?);
        }
        Some(Item::List(items))
    }

    fn map(&mut self, count: Option<u64>, levels: usize) -> Option<Item<'a>> {
        let mut keys = Vec::with_capacity(room(count));
        let mut entries = Vec::with_capacity(room(count));
        while self.goes_on(count, entries.len())? {
            let start = self.place;
            let key = self.item(levels)?;
            keys.push(equal_key(&key, &self.bytes[start..self.place]));
            entries.push((key, self.item(levels)?));
        }
        are_distinct(&keys).then_some(Item::Map(entries))
    }

    /// Whether a list or map, of which so many parts are read, has one more.
    fn goes_on(&mut self, count: Option<u64>, read: usize) -> Option<bool> {
        match count {
            Some(count) => Some((read as u64) < count),
            None => {
                let is_break = *self.bytes.get(self.place)? == 0xff;
                if is_break {
                    self.place += 1;
                }
                Some(!is_break)
            }
        }
    }
}

/// How much room to begin with, since a head may say more than the bytes hold.
fn room(count: Option<u64>) -> usize {
    count.map_or(0, |count| count.min(1_024) as usize)
}

fn equal_key<'a>(key: &Item<'a>, encoding: &'a [u8]) -> Key<'a> {
    match key {
        Item::Unsigned(number) => Key::Unsigned(*number),
        Item::Negative(number) => Key::Negative(*number),
        Item::Bytes(bytes) => Key::Bytes(bytes),
        Item::Text(text) => Key::Text(text),
        _ => Key::Encoded(encoding),
    }
}

fn are_distinct(keys: &[Key]) -> bool {
    // Few keys are compared faster than they are hashed.
    if keys.len() <= 8 {
        return keys
            .iter()
            .enumerate()
            .all(|(i, key)| !keys[..i].contains(key));
    }
    let mut seen = HashSet::with_capacity(keys.len());
    keys.iter().all(|key| seen.insert(key))
}

fn simple<'a>(head: Head) -> Option<Item<'a>> {
    match (head.info, head.argument?) {
        (20 | 21, _) => Some(Item::Bool),
        (22, _) => Some(Item::Null),
        (24, 0..=31) => None,
        _ => Some(Item::Other),
    }
}

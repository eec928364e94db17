//! Where digests stand in the JSON of an SD-JWT.

use crate::Rule;
use serde_json::{Map, Value};

/// Where a digest stands, and so which form its disclosure must have.
#[derive(Clone, Copy, PartialEq)]
pub enum Place {
    Object,
    List,
}

/// The digests within a value, in whose order they stand, and the objects that have an `_sd`.
#[derive(Default)]
pub struct Marks<'a> {
    pub digests: Vec<(&'a str, Place)>,
    pub objects: Vec<&'a Map<String, Value>>,
}

impl<'a> Marks<'a> {
    /// The marks of a value. Rule 8 is broken where `_sd` or `...` stands where or as it may not.
    pub fn of(value: &'a Value) -> Result<Marks<'a>, Rule> {
        let mut marks = Marks::default();
        marks.add(value)?;
        Ok(marks)
    }

    pub fn of_object(object: &'a Map<String, Value>) -> Result<Marks<'a>, Rule> {
        let mut marks = Marks::default();
        marks.add_object(object)?;
        Ok(marks)
    }

    fn add(&mut self, value: &'a Value) -> Result<(), Rule> {
        match value {
            Value::Array(list) => self.add_list(list),
            Value::Object(object) => self.add_object(object),
            _ => Ok(()),
        }
    }

    fn add_list(&mut self, list: &'a [Value]) -> Result<(), Rule> {
        for element in list {
            match placeholder(element) {
                Some(digest) => self.digests.push((digest, Place::List)),
                None => self.add(element)?,
            }
        }
        Ok(())
    }

    fn add_object(&mut self, object: &'a Map<String, Value>) -> Result<(), Rule> {
        for (name, value) in object {
            match name.as_str() {
                "_sd" => {
                    self.objects.push(object);
                    for digest in value.as_array().ok_or(8)? {
                        self.digests
                            .push((digest.as_str().ok_or(8)?, Place::Object));
                    }
                }
                "..." => return Err(8),
                _ => self.add(value)?,
            }
        }
        Ok(())
    }
}

/// The digest of an element that is a placeholder.
pub fn placeholder(element: &Value) -> Option<&str> {
    let object = element.as_object()?;
    if object.len() != 1 {
        return None;
    }
    object.get("...")?.as_str()
}

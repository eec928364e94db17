//! The one claim that a query of the benchmark asks for.

use serde_json::Value;

/// A claims path pointer (OpenID4VP 1.0, section 7) of names and nulls.
pub struct Path(Vec<Step>);

pub enum Step {
    Member(String),
    AllElements,
}

impl Path {
    /// The path of the first claim of the first credential query.
    pub fn from_query(bytes: &[u8]) -> Option<Path> {
        let query: Value = serde_json::from_slice(bytes).ok()?;
        let path = query["credentials"][0]["claims"][0]["path"].as_array()?;
        let steps = path.iter().map(|step| match step {
            Value::String(name) => Some(Step::Member(name.clone())),
            Value::Null => Some(Step::AllElements),
            _ => None,
        });
        Some(Path(steps.collect::<Option<Vec<Step>>>()?))
    }

    pub fn steps(&self) -> &[Step] {
        &self.0
    }

    /// Whether the path leads somewhere in a claim tree.
    pub fn has_hit(&self, root: &Value) -> bool {
        let mut selected = vec![root];
        for step in &self.0 {
            let Some(next) = follow(step, &selected) else {
                return false;
            };
            selected = next;
        }
        !selected.is_empty()
    }
}

/// What a step leads to from the selected elements; nothing where one of them is of the wrong kind.
fn follow<'a>(step: &Step, selected: &[&'a Value]) -> Option<Vec<&'a Value>> {
    let mut next = Vec::new();
    for value in selected {
        match step {
            Step::Member(name) => next.extend(value.as_object()?.get(name)),
            Step::AllElements => next.extend(value.as_array()?),
        }
    }
    Some(next)
}

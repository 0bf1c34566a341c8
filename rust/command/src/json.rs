//! JSON, as far as answers need it.

use std::fmt::{Display, Formatter, Result, Write};

/// A value. Numbers are kept as they are written, so that no cent is lost on the way.
#[derive(Clone, Debug, PartialEq, Eq)]
pub enum Json {
    Null,
    Number(String),
    Text(String),
    List(Vec<Json>),
    Object(Vec<(&'static str, Json)>),
}

pub fn object<const N: usize>(members: [(&'static str, Json); N]) -> Json {
    Json::Object(members.into())
}

impl Json {
    pub fn whole(number: usize) -> Json {
        Json::Number(number.to_string())
    }

    pub fn text(text: impl AsRef<str>) -> Json {
        Json::Text(text.as_ref().to_string())
    }

    /// The members of two objects in one.
    pub fn and(self, other: Json) -> Json {
        match (self, other) {
            (Json::Object(members), Json::Object(more)) => {
                Json::Object(members.into_iter().chain(more).collect())
            }
            (value, _) => value,
        }
    }

    /// The member of an object.
    pub fn member(&self, name: &str) -> Option<&Json> {
        let Json::Object(members) = self else {
            return None;
        };
        let member = members.iter().find(|(n, _)| *n == name);
        member.map(|(_, value)| value)
    }

    /// The object with one member more.
    pub fn with(self, name: &'static str, value: Json) -> Json {
        self.and(object([(name, value)]))
    }
}

impl Display for Json {
    fn fmt(&self, to: &mut Formatter<'_>) -> Result {
        match self {
            Json::Null => to.write_str("null"),
            Json::Number(digits) => to.write_str(digits),
            Json::Text(text) => write_text(to, text),
            Json::List(values) => {
                to.write_char('[')?;
                for (i, value) in values.iter().enumerate() {
                    write!(to, "{}{value}", if i == 0 { "" } else { "," })?;
                }
                to.write_char(']')
            }
            Json::Object(members) => {
                to.write_char('{')?;
                for (i, (name, value)) in members.iter().enumerate() {
                    to.write_str(if i == 0 { "" } else { "," })?;
                    write_text(to, name)?;
                    write!(to, ":{value}")?;
                }
                to.write_char('}')
            }
        }
    }
}

fn write_text(to: &mut Formatter<'_>, text: &str) -> Result {
    to.write_char('"')?;
    for c in text.chars() {
        match c {
            '"' | '\\' => write!(to, "\\{c}")?,
            c if c.is_control() => write!(to, "\\u{:04x}", u32::from(c))?,
            c => to.write_char(c)?,
        }
    }
    to.write_char('"')
}

#[cfg(test)]
mod tests {
    use super::*;

    #[test]
    fn values_are_written() {
        let list = Json::List(vec![Json::Null, Json::whole(7)]);
        let value = object([("a", list), ("b", Json::text("\"\\\n\u{1b}é"))]);
        let expected = r#"{"a":[null,7],"b":"\"\\\u000a\u001bé"}"#;
        assert_eq!(value.to_string(), expected);
    }
}

//! JSON, as `--json` prints it.

use std::fmt::{self, Write};

/// A value. All numbers are whole, and small enough for a reader that keeps them as doubles.
#[derive(Clone, Debug, PartialEq, Eq)]
pub enum Json {
    Null,
    Bool(bool),
    Number(i64),
    Text(String),
    List(Vec<Json>),
    Object(Vec<(&'static str, Json)>),
}

impl Json {
    pub fn list<T: Into<Json>>(items: impl IntoIterator<Item = T>) -> Json {
        Json::List(items.into_iter().map(Into::into).collect())
    }

    /// An object with one more member at its end; of anything else, itself.
    pub fn with(self, name: &'static str, value: impl Into<Json>) -> Json {
        match self {
            Json::Object(mut members) => {
                members.push((name, value.into()));
                Json::Object(members)
            }
            other => other,
        }
    }

    /// An object with these members before its own; of anything else, itself.
    pub fn headed(self, mut head: Vec<(&'static str, Json)>) -> Json {
        match self {
            Json::Object(members) => {
                head.extend(members);
                Json::Object(head)
            }
            other => other,
        }
    }

    /// Whether it stands on one line: nothing in it holds anything.
    fn is_flat(&self) -> bool {
        let holds_nothing = |item: &Json| !matches!(item, Json::List(_) | Json::Object(_));
        match self {
            Json::List(items) => items.iter().all(holds_nothing),
            Json::Object(members) => members.iter().all(|(_, value)| holds_nothing(value)),
            _ => true,
        }
    }

    fn write(&self, f: &mut fmt::Formatter<'_>, depth: usize) -> fmt::Result {
        match self {
            Json::Null => f.write_str("null"),
            Json::Bool(value) => write!(f, "{value}"),
            Json::Number(value) => write!(f, "{value}"),
            Json::Text(text) => write_text(f, text),
            Json::List(items) => {
                let items = items.iter().map(|item| (None, item));
                self.write_all(f, depth, ['[', ']'], items)
            }
            Json::Object(members) => {
                let members = members.iter().map(|(name, value)| (Some(*name), value));
                self.write_all(f, depth, ['{', '}'], members)
            }
        }
    }

    /// Writes the items between brackets, on one line or on one each. The outermost value has its
    /// items on lines of their own, so that it can be read and compared.
    fn write_all<'a>(
        &self,
        f: &mut fmt::Formatter<'_>,
        depth: usize,
        [open, close]: [char; 2],
        items: impl ExactSizeIterator<Item = (Option<&'static str>, &'a Json)>,
    ) -> fmt::Result {
        let on_one_line = items.len() == 0 || depth > 0 && self.is_flat();
        f.write_char(open)?;
        for (place, (name, value)) in items.enumerate() {
            match (place, on_one_line) {
                (0, true) => (),
                (0, false) => new_line(f, depth + 1)?,
                (_, true) => f.write_str(", ")?,
                (_, false) => {
                    f.write_char(',')?;
                    new_line(f, depth + 1)?;
                }
            }
            if let Some(name) = name {
                write_text(f, name)?;
                f.write_str(": ")?;
            }
            value.write(f, depth + 1)?;
        }
        if !on_one_line {
            new_line(f, depth)?;
        }
        f.write_char(close)
    }
}

impl fmt::Display for Json {
    fn fmt(&self, f: &mut fmt::Formatter<'_>) -> fmt::Result {
        self.write(f, 0)
    }
}

fn new_line(f: &mut fmt::Formatter<'_>, depth: usize) -> fmt::Result {
    write!(f, "\n{:1$}", "", 2 * depth)
}

fn write_text(f: &mut fmt::Formatter<'_>, text: &str) -> fmt::Result {
    f.write_char('"')?;
    for c in text.chars() {
        match c {
            '"' => f.write_str("\\\"")?,
            '\\' => f.write_str("\\\\")?,
            '\n' => f.write_str("\\n")?,
            _ if c.is_control() => write!(f, "\\u{:04x}", u32::from(c))?,
            _ => f.write_char(c)?,
        }
    }
    f.write_char('"')
}

impl From<bool> for Json {
    fn from(value: bool) -> Json {
        Json::Bool(value)
    }
}

impl From<u8> for Json {
    fn from(value: u8) -> Json {
        Json::Number(value.into())
    }
}

impl From<u16> for Json {
    fn from(value: u16) -> Json {
        Json::Number(value.into())
    }
}

impl From<u32> for Json {
    fn from(value: u32) -> Json {
        Json::Number(value.into())
    }
}

impl From<u64> for Json {
    fn from(value: u64) -> Json {
        Json::Number(i64::try_from(value).expect("no number here comes near 2^63"))
    }
}

impl From<usize> for Json {
    fn from(value: usize) -> Json {
        Json::from(value as u64)
    }
}

impl From<i64> for Json {
    fn from(value: i64) -> Json {
        Json::Number(value)
    }
}

impl From<&str> for Json {
    fn from(text: &str) -> Json {
        Json::Text(text.into())
    }
}

impl From<String> for Json {
    fn from(text: String) -> Json {
        Json::Text(text)
    }
}

impl From<&std::path::Path> for Json {
    fn from(path: &std::path::Path) -> Json {
        Json::Text(path.display().to_string())
    }
}

impl<T: Into<Json>> From<Option<T>> for Json {
    fn from(value: Option<T>) -> Json {
        value.map_or(Json::Null, Into::into)
    }
}

#[cfg(test)]
mod tests {
    use super::*;

    #[test]
    fn values_are_written() {
        let inner = Json::Object(vec![("id", 7u32.into()), ("name", "tower".into())]);
        let value = Json::Object(vec![
            ("none", Json::Null),
            ("yes", true.into()),
            ("gain", (-5i64).into()),
            ("empty", Json::List(Vec::new())),
            (
                "rows",
                Json::List(vec![Json::list([1u32, 2]), Json::list([3u32])]),
            ),
            ("boxes", Json::list([inner])),
        ]);
        let expected =
            "{\n  \"none\": null,\n  \"yes\": true,\n  \"gain\": -5,\n  \"empty\": [],\n  \
                        \"rows\": [\n    [1, 2],\n    [3]\n  ],\n  \
                        \"boxes\": [\n    {\"id\": 7, \"name\": \"tower\"}\n  ]\n}";
        assert_eq!(value.to_string(), expected);
    }

    #[test]
    fn text_is_escaped() {
        let text = Json::from("a \"b\" \\ \n\t\u{1}\u{7f}\u{9b} Büro");
        assert_eq!(
            text.to_string(),
            r#""a \"b\" \\ \n\u0009\u0001\u007f\u009b Büro""#
        );
    }

    #[test]
    fn only_an_object_takes_members() {
        let object = Json::Object(Vec::new()).with("n", 1u8);
        assert_eq!(object.to_string(), "{\n  \"n\": 1\n}");
        let object = object.headed(vec![("m", 2u8.into())]);
        assert_eq!(object.to_string(), "{\n  \"m\": 2,\n  \"n\": 1\n}");
        assert_eq!(Json::Null.with("n", 1u8), Json::Null);
        assert_eq!(Json::Null.headed(vec![("m", 2u8.into())]), Json::Null);
    }
}

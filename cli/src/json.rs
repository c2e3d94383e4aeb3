//! JSON documents.

use std::fmt::{self, Write};

pub enum Json {
    Null,
    Number(i64),
    Text(String),
    List(Vec<Json>),
    Object(Vec<(&'static str, Json)>),
}

impl Json {
    /// A number of 64 bits, as text: many readers keep a number as a double, which has 53 of them.
    pub fn wide(number: u64) -> Json {
        Json::Text(number.to_string())
    }

    fn write(&self, f: &mut fmt::Formatter<'_>, depth: usize) -> fmt::Result {
        match self {
            Json::Null => f.write_str("null"),
            Json::Number(number) => write!(f, "{number}"),
            Json::Text(text) => string(f, text),
            Json::List(items) => block(f, depth, ('[', ']'), items, |f, item| item.write(f, depth + 1)),
            Json::Object(members) => block(f, depth, ('{', '}'), members, |f, (name, value)| {
                string(f, name)?;
                f.write_str(": ")?;
                value.write(f, depth + 1)
            }),
        }
    }
}

impl fmt::Display for Json {
    fn fmt(&self, f: &mut fmt::Formatter<'_>) -> fmt::Result {
        self.write(f, 0)
    }
}

/// What a list or an object encloses, each part on a line of its own.
fn block<T>(
    f: &mut fmt::Formatter<'_>,
    depth: usize,
    (open, close): (char, char),
    parts: &[T],
    write: impl Fn(&mut fmt::Formatter<'_>, &T) -> fmt::Result,
) -> fmt::Result {
    f.write_char(open)?;
    for (index, part) in parts.iter().enumerate() {
        f.write_str(if index == 0 { "\n" } else { ",\n" })?;
        indent(f, depth + 1)?;
        write(f, part)?;
    }
    if !parts.is_empty() {
        f.write_char('\n')?;
        indent(f, depth)?;
    }
    f.write_char(close)
}

fn indent(f: &mut fmt::Formatter<'_>, depth: usize) -> fmt::Result {
    write!(f, "{:width$}", "", width = 2 * depth)
}

fn string(f: &mut fmt::Formatter<'_>, text: &str) -> fmt::Result {
    f.write_char('"')?;
    for char in text.chars() {
        match char {
            '"' | '\\' => write!(f, "\\{char}")?,
            '\0'..='\x1f' => write!(f, "\\u{:04x}", u32::from(char))?,
            _ => f.write_char(char)?,
        }
    }
    f.write_char('"')
}

#[cfg(test)]
mod tests {
    use super::Json::{List, Null, Number, Object, Text};
    use super::*;

    #[test]
    fn documents() {
        let document = Object(vec![
            ("none", List(vec![])),
            ("some", List(vec![Number(-1), Null])),
            ("text", Text("a\"\\\n\u{e4}".to_string())),
            ("wide", Json::wide(u64::MAX)),
            ("empty", Object(vec![])),
        ]);
        let expected = r#"{
  "none": [],
  "some": [
    -1,
    null
  ],
  "text": "a\"\\\u000aä",
  "wide": "18446744073709551615",
  "empty": {}
}"#;
        assert_eq!(document.to_string(), expected);
    }
}

//! A reader of JSON that takes nothing but JSON.

use std::collections::BTreeMap;

#[derive(Clone, Debug, PartialEq)]
pub enum Value {
    Null,
    Number(i64),
    Text(String),
    List(Vec<Value>),
    Object(BTreeMap<String, Value>),
}

impl Value {
    /// The member of an object.
    pub fn at(&self, name: &str) -> &Value {
        match self {
            Value::Object(members) => members.get(name).unwrap_or_else(|| panic!("no member {name}")),
            _ => panic!("no object with a member {name}"),
        }
    }

    pub fn list(&self) -> &[Value] {
        match self {
            Value::List(items) => items,
            _ => panic!("no list"),
        }
    }

    pub fn text(&self) -> &str {
        match self {
            Value::Text(text) => text,
            _ => panic!("no text: {self:?}"),
        }
    }

    pub fn number(&self) -> i64 {
        match self {
            Value::Number(number) => *number,
            _ => panic!("no number: {self:?}"),
        }
    }
}

/// The one document in the text.
pub fn read(text: &str) -> Value {
    let mut reader = Reader { rest: text };
    let value = reader.value();
    assert_eq!(reader.rest.trim_start(), "", "more than one document");
    value
}

struct Reader<'a> {
    rest: &'a str,
}

impl Reader<'_> {
    fn value(&mut self) -> Value {
        match self.peek() {
            '{' => Value::Object(self.enclosed('{', '}', Reader::member).into_iter().collect()),
            '[' => Value::List(self.enclosed('[', ']', Reader::value)),
            '"' => Value::Text(self.string()),
            'n' => {
                self.rest = self.rest.strip_prefix("null").expect("null");
                Value::Null
            }
            _ => self.number(),
        }
    }

    fn peek(&mut self) -> char {
        self.rest = self.rest.trim_start_matches([' ', '\n', '\r', '\t']);
        self.rest.chars().next().expect("the document is cut")
    }

    fn take(&mut self, expected: char) {
        assert_eq!(self.peek(), expected);
        self.rest = &self.rest[1..];
    }

    fn enclosed<T>(&mut self, open: char, close: char, part: impl Fn(&mut Self) -> T) -> Vec<T> {
        let mut parts = Vec::new();
        self.take(open);
        while self.peek() != close {
            if !parts.is_empty() {
                self.take(',');
            }
            parts.push(part(self));
        }
        self.take(close);
        parts
    }

    fn member(&mut self) -> (String, Value) {
        self.peek();
        let name = self.string();
        self.take(':');
        (name, self.value())
    }

    fn string(&mut self) -> String {
        self.take('"');
        let mut text = String::new();
        loop {
            let mut chars = self.rest.chars();
            let char = chars.next().expect("a string is cut");
            self.rest = chars.as_str();
            match char {
                '"' => return text,
                '\\' => text.push(self.escaped()),
                '\0'..='\x1f' => panic!("a control character in a string"),
                _ => text.push(char),
            }
        }
    }

    fn escaped(&mut self) -> char {
        let char = self.rest.chars().next().expect("an escape is cut");
        self.rest = &self.rest[char.len_utf8()..];
        match char {
            '"' | '\\' => char,
            'u' => {
                let (digits, rest) = self.rest.split_at(4);
                self.rest = rest;
                char::from_u32(u32::from_str_radix(digits, 16).unwrap()).unwrap()
            }
            _ => panic!("an escape that the tool doesn't need: {char}"),
        }
    }

    fn number(&mut self) -> Value {
        let end = self.rest.find(|char: char| char != '-' && !char.is_ascii_digit()).unwrap_or(self.rest.len());
        let (digits, rest) = self.rest.split_at(end);
        self.rest = rest;
        let number: i64 = digits.parse().unwrap_or_else(|_| panic!("no number: {digits}"));
        assert_eq!(number.to_string(), digits, "JSON has no leading zeros");
        Value::Number(number)
    }
}

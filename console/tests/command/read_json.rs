//! A reader of JSON that knows nothing of the writer.

use std::collections::BTreeMap;
use std::iter::Peekable;
use std::str::Chars;

#[derive(Clone, Debug, PartialEq)]
pub enum Value {
    Null,
    Bool(bool),
    Number(f64),
    Text(String),
    List(Vec<Value>),
    Object(BTreeMap<String, Value>),
}

impl Value {
    /// The member of an object.
    pub fn get(&self, name: &str) -> &Value {
        match self {
            Value::Object(members) => members
                .get(name)
                .unwrap_or_else(|| panic!("there is no {name} in {members:?}")),
            other => panic!("{other:?} is no object"),
        }
    }

    pub fn list(&self) -> &[Value] {
        match self {
            Value::List(items) => items,
            other => panic!("{other:?} is no list"),
        }
    }

    /// One line with sorted members and no spaces, as another program writes it too.
    pub fn line(&self) -> String {
        match self {
            Value::Null => "null".into(),
            Value::Bool(value) => value.to_string(),
            Value::Number(number) => number.to_string(),
            Value::Text(text) => quoted(text),
            Value::List(items) => {
                let items: Vec<String> = items.iter().map(Value::line).collect();
                format!("[{}]", items.join(","))
            }
            Value::Object(members) => {
                let members: Vec<String> = members
                    .iter()
                    .map(|(name, value)| format!("{}:{}", quoted(name), value.line()))
                    .collect();
                format!("{{{}}}", members.join(","))
            }
        }
    }
}

fn quoted(text: &str) -> String {
    let mut line = String::from('"');
    for c in text.chars() {
        match c {
            '"' => line += "\\\"",
            '\\' => line += "\\\\",
            '\n' => line += "\\n",
            c if c.is_ascii_graphic() || c == ' ' => line.push(c),
            c => {
                let mut units = [0; 2];
                for unit in c.encode_utf16(&mut units) {
                    line += &format!("\\u{unit:04x}");
                }
            }
        }
    }
    line + "\""
}

/// The one value of the text.
pub fn read(text: &str) -> Value {
    let mut chars = text.chars().peekable();
    let found = value(&mut chars);
    skip(&mut chars);
    assert_eq!(chars.next(), None, "there is one value and nothing else");
    found
}

fn skip(chars: &mut Peekable<Chars>) {
    while chars.next_if(|c| " \t\r\n".contains(*c)).is_some() {}
}

fn expect(chars: &mut Peekable<Chars>, word: &str) {
    for c in word.chars() {
        assert_eq!(chars.next(), Some(c));
    }
}

fn value(chars: &mut Peekable<Chars>) -> Value {
    skip(chars);
    match chars.peek().expect("a value") {
        '{' => object(chars),
        '[' => list(chars),
        '"' => Value::Text(text(chars)),
        'n' => {
            expect(chars, "null");
            Value::Null
        }
        't' => {
            expect(chars, "true");
            Value::Bool(true)
        }
        'f' => {
            expect(chars, "false");
            Value::Bool(false)
        }
        _ => number(chars),
    }
}

fn number(chars: &mut Peekable<Chars>) -> Value {
    let mut digits = String::new();
    while let Some(c) = chars.next_if(|c| c.is_ascii_digit() || *c == '-') {
        digits.push(c);
    }
    assert!(!digits.starts_with('0') || digits == "0", "{digits}");
    Value::Number(digits.parse().expect("a number"))
}

fn list(chars: &mut Peekable<Chars>) -> Value {
    let mut items = Vec::new();
    expect(chars, "[");
    skip(chars);
    while chars.peek() != Some(&']') {
        items.push(value(chars));
        skip(chars);
        if chars.peek() != Some(&']') {
            expect(chars, ",");
        }
    }
    expect(chars, "]");
    Value::List(items)
}

fn object(chars: &mut Peekable<Chars>) -> Value {
    let mut members = BTreeMap::new();
    expect(chars, "{");
    skip(chars);
    while chars.peek() != Some(&'}') {
        let name = text(chars);
        skip(chars);
        expect(chars, ":");
        let earlier = members.insert(name, value(chars));
        assert_eq!(earlier, None, "each name stands once");
        skip(chars);
        if chars.peek() != Some(&'}') {
            expect(chars, ",");
            skip(chars);
        }
    }
    expect(chars, "}");
    Value::Object(members)
}

fn text(chars: &mut Peekable<Chars>) -> String {
    let mut found = String::new();
    expect(chars, "\"");
    loop {
        match chars.next().expect("a closing quote") {
            '"' => return found,
            '\\' => found.push(escaped(chars)),
            c => {
                assert!(!c.is_control(), "control characters are escaped");
                found.push(c);
            }
        }
    }
}

fn escaped(chars: &mut Peekable<Chars>) -> char {
    match chars.next().expect("what is escaped") {
        'n' => '\n',
        'u' => {
            let digits: String = chars.by_ref().take(4).collect();
            let number = u32::from_str_radix(&digits, 16).expect("four digits");
            char::from_u32(number).expect("a character")
        }
        c => {
            assert!("\"\\/".contains(c), "{c} is not escaped");
            c
        }
    }
}

#[test]
fn values_are_read() {
    let line = r#"{"a": [1, -20, {"b": "x\n\"\u0041é"}], "c": [], "d": {}, "e": [true, null]}"#;
    let value = read(line);
    assert_eq!(value.get("a").list()[1], Value::Number(-20.0));
    let expected = r#"{"a":[1,-20,{"b":"x\n\"A\u00e9"}],"c":[],"d":{},"e":[true,null]}"#;
    assert_eq!(value.line(), expected);
}

//! A strict reader of JSON, for what the program prints.

use std::ops::Index;

#[derive(Debug, PartialEq)]
pub enum Value {
    Null,
    Bool(bool),
    Number(f64),
    Text(String),
    List(Vec<Value>),
    Object(Vec<(String, Value)>),
}

impl Value {
    /// Reads a text that is one value.
    pub fn read(text: &str) -> Self {
        let mut reader = Reader { text, at: 0 };
        let value = reader.value();
        reader.space();
        assert_eq!(reader.at, text.len(), "something stands after the value");
        value
    }

    pub fn list(&self) -> &[Value] {
        match self {
            Self::List(values) => values,
            other => panic!("{other:?} is no list"),
        }
    }

    pub fn text(&self) -> &str {
        match self {
            Self::Text(text) => text,
            other => panic!("{other:?} is no text"),
        }
    }

    pub fn number(&self) -> f64 {
        match self {
            Self::Number(number) => *number,
            other => panic!("{other:?} is no number"),
        }
    }

    /// The keys of an object, in order.
    pub fn keys(&self) -> Vec<&str> {
        match self {
            Self::Object(pairs) => pairs.iter().map(|(key, _)| key.as_str()).collect(),
            other => panic!("{other:?} is no object"),
        }
    }
}

impl Index<&str> for Value {
    type Output = Value;

    fn index(&self, key: &str) -> &Value {
        let Self::Object(pairs) = self else {
            panic!("{self:?} is no object");
        };
        let pair = pairs.iter().find(|(own, _)| own == key);
        &pair.unwrap_or_else(|| panic!("{self:?} has no {key}")).1
    }
}

impl Index<usize> for Value {
    type Output = Value;

    fn index(&self, at: usize) -> &Value {
        &self.list()[at]
    }
}

struct Reader<'a> {
    text: &'a str,
    at: usize,
}

impl Reader<'_> {
    fn space(&mut self) {
        let rest = &self.text[self.at..];
        self.at += rest.len() - rest.trim_start_matches([' ', '\n', '\t', '\r']).len();
    }

    /// Takes a text that stands next, if it does.
    fn take(&mut self, expected: &str) -> bool {
        let found = self.text[self.at..].starts_with(expected);
        self.at += if found { expected.len() } else { 0 };
        found
    }

    fn value(&mut self) -> Value {
        self.space();
        for (word, value) in [
            ("null", Value::Null),
            ("true", Value::Bool(true)),
            ("false", Value::Bool(false)),
        ] {
            if self.take(word) {
                return value;
            }
        }
        if self.take("\"") {
            return Value::Text(self.string());
        }
        if self.take("[") {
            let mut values = Vec::new();
            self.members("]", |reader| values.push(reader.value()));
            return Value::List(values);
        }
        if self.take("{") {
            let mut pairs: Vec<(String, Value)> = Vec::new();
            self.members("}", |reader| {
                reader.space();
                assert!(reader.take("\""), "no key at {}", reader.at);
                let key = reader.string();
                reader.space();
                assert!(reader.take(":"), "no colon at {}", reader.at);
                assert!(pairs.iter().all(|(own, _)| *own != key), "{key} twice");
                pairs.push((key, reader.value()));
            });
            return Value::Object(pairs);
        }
        self.number()
    }

    /// What stands between two brackets, with commas between.
    fn members(&mut self, close: &str, mut member: impl FnMut(&mut Self)) {
        self.space();
        if self.take(close) {
            return;
        }
        loop {
            member(self);
            self.space();
            if self.take(close) {
                return;
            }
            assert!(self.take(","), "no comma at {}", self.at);
        }
    }

    fn number(&mut self) -> Value {
        let rest = &self.text[self.at..];
        let end = rest.find(|c: char| !matches!(c, '0'..='9' | '-' | '+' | '.' | 'e' | 'E'));
        let text = &rest[..end.unwrap_or(rest.len())];
        let digits = text.trim_start_matches('-');
        let leading = digits.len() > 1 && digits.starts_with('0') && !digits.starts_with("0.");
        let begun = digits.starts_with(|c: char| c.is_ascii_digit());
        let ended = digits.ends_with(|c: char| c.is_ascii_digit());
        assert!(
            begun && ended && !leading,
            "no value at {}: {text:?}",
            self.at
        );
        self.at += text.len();
        let number: f64 = text.parse().unwrap();
        assert!(number.is_finite());
        Value::Number(number)
    }

    /// A string, after its first quote.
    fn string(&mut self) -> String {
        let mut text = String::new();
        loop {
            let character = self.text[self.at..].chars().next().expect("no end");
            self.at += character.len_utf8();
            match character {
                '"' => return text,
                '\\' => text.push(self.escape()),
                _ => {
                    assert!(character >= ' ', "a bare {character:?} at {}", self.at);
                    text.push(character);
                }
            }
        }
    }

    fn escape(&mut self) -> char {
        let character = self.text[self.at..].chars().next().expect("no end");
        self.at += 1;
        match character {
            '"' | '\\' | '/' => character,
            'n' => '\n',
            't' => '\t',
            'r' => '\r',
            'b' => '\u{8}',
            'f' => '\u{c}',
            'u' => {
                let digits = &self.text[self.at..self.at + 4];
                self.at += 4;
                char::from_u32(u32::from_str_radix(digits, 16).unwrap()).unwrap()
            }
            other => panic!("an escape of {other:?}"),
        }
    }
}

#[test]
fn the_reader_is_strict() {
    let value = Value::read(" {\"a\": [1, -2.5e1, null], \"b\\u0041\\n\": \"é\"} ");
    assert_eq!(value["a"][1].number(), -25.0);
    assert_eq!(value["bA\n"].text(), "é");
    for wrong in [
        "",
        "[1,]",
        "[1 2]",
        "{\"a\":1,}",
        "{a:1}",
        "01",
        "nan",
        "inf",
        "\"\n\"",
        "\"a",
        "[] 1",
        "{\"a\":1,\"a\":2}",
        "1.",
        "-",
        "True",
    ] {
        let read = std::panic::catch_unwind(|| Value::read(wrong));
        assert!(read.is_err(), "{wrong:?} was read");
    }
}

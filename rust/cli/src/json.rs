//! JSON, as far as it is written here.

use std::{fmt, path::Path};

pub enum Json {
    Null,
    Bool(bool),
    Whole(i64),
    Number(f32),
    Text(String),
    List(Vec<Json>),
    Object(Vec<(&'static str, Json)>),
}

impl Json {
    pub fn text(text: impl fmt::Display) -> Self {
        Self::Text(text.to_string())
    }

    /// A file's name; bytes that are not UTF-8 are replaced.
    pub fn path(path: &Path) -> Self {
        Self::Text(path.to_string_lossy().into_owned())
    }

    /// The value, with its lists and objects spread over lines as long as they
    /// stand less than so many levels deep.
    pub fn spread(&self, levels: usize) -> String {
        let mut out = String::new();
        self.put(&mut out, levels, 0);
        out
    }

    fn put(&self, out: &mut String, levels: usize, depth: usize) {
        match self {
            Self::Null => out.push_str("null"),
            Self::Bool(value) => out.push_str(if *value { "true" } else { "false" }),
            Self::Whole(value) => out.push_str(&value.to_string()),
            Self::Number(value) if value.is_finite() => out.push_str(&value.to_string()),
            Self::Number(_) => out.push_str("null"),
            Self::Text(text) => put_text(out, text),
            Self::List(values) => {
                let mut members = Members::new(out, "[]", levels, depth);
                for value in values {
                    value.put(members.next(), levels, depth + 1);
                }
                members.end();
            }
            Self::Object(pairs) => {
                let mut members = Members::new(out, "{}", levels, depth);
                for (key, value) in pairs {
                    let out = members.next();
                    put_text(out, key);
                    out.push_str(": ");
                    value.put(out, levels, depth + 1);
                }
                members.end();
            }
        }
    }
}

/// What stands around and between the members of a list or an object.
struct Members<'a> {
    out: &'a mut String,
    close: &'a str,
    spread: bool,
    depth: usize,
    count: usize,
}

impl<'a> Members<'a> {
    fn new(out: &'a mut String, ends: &'a str, levels: usize, depth: usize) -> Self {
        let (open, close) = ends.split_at(1);
        out.push_str(open);
        Self {
            out,
            close,
            spread: depth < levels,
            depth,
            count: 0,
        }
    }

    /// The place of the next member.
    fn next(&mut self) -> &mut String {
        if self.count > 0 {
            self.out.push(',');
        }
        if self.spread {
            self.line(self.depth + 1);
        } else if self.count > 0 {
            self.out.push(' ');
        }
        self.count += 1;
        self.out
    }

    fn end(mut self) {
        if self.spread && self.count > 0 {
            self.line(self.depth);
        }
        self.out.push_str(self.close);
    }

    fn line(&mut self, depth: usize) {
        self.out.push('\n');
        self.out.push_str(&"  ".repeat(depth));
    }
}

fn put_text(out: &mut String, text: &str) {
    out.push('"');
    for character in text.chars() {
        match character {
            '"' => out.push_str("\\\""),
            '\\' => out.push_str("\\\\"),
            '\n' => out.push_str("\\n"),
            '\t' => out.push_str("\\t"),
            '\r' => out.push_str("\\r"),
            _ if character.is_control() => {
                out.push_str(&format!("\\u{:04x}", u32::from(character)));
            }
            _ => out.push(character),
        }
    }
    out.push('"');
}

#[cfg(test)]
mod tests {
    use super::*;

    #[test]
    fn texts_and_numbers() {
        let value = Json::List(vec![
            Json::text("a\"b\\c\n\t\r\u{1}\u{7f}é<"),
            Json::Number(0.1),
            Json::Number(f32::MAX),
            Json::Number(-0.0),
            Json::Number(f32::NAN),
            Json::Number(f32::INFINITY),
            Json::Whole(-14),
            Json::Bool(false),
            Json::Null,
        ]);
        assert_eq!(
            value.spread(0),
            "[\"a\\\"b\\\\c\\n\\t\\r\\u0001\\u007fé<\", 0.1, \
             340282350000000000000000000000000000000, -0, null, null, -14, false, null]"
        );
    }

    #[test]
    fn spread_over_lines() {
        let inner = || Json::Object(vec![("a", Json::Null), ("b", Json::List(vec![]))]);
        let value = Json::Object(vec![
            ("list", Json::List(vec![inner(), inner()])),
            ("none", Json::List(vec![])),
        ]);
        let expected = "{\n  \"list\": [\n    {\"a\": null, \"b\": []},\n    \
                        {\"a\": null, \"b\": []}\n  ],\n  \"none\": []\n}";
        assert_eq!(value.spread(2), expected);
    }
}

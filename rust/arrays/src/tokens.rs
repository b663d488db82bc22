//! The tokens of a source file, each with its line.

/// What a token is. Text of specifications that has no meaning here is `Other`.
#[derive(Clone, Debug, PartialEq, Eq)]
pub enum Token {
    Name(String),
    Lifetime(String),
    /// The digits, with the prefix of their base and without `_`, and the suffix, which may be empty.
    Number(String, String),
    Text(String),
    Mark(&'static str),
    Other(char),
}

#[derive(Clone, Debug, PartialEq, Eq)]
pub struct Placed {
    pub token: Token,
    pub line: usize,
}

/// Longer ones first.
const MARKS: [&str; 48] = [
    "..=", "<<=", ">>=", "::", "->", "=>", "==", "!=", "<=", ">=", "&&", "||", "+=", "-=", "*=",
    "/=", "%=", "&=", "|=", "^=", "<<", ">>", "..", "{", "}", "(", ")", "[", "]", "<", ">", ",",
    ";", ":", ".", "=", "+", "-", "*", "/", "%", "&", "|", "^", "!", "#", "?", "@",
];

/// The prefixes of numbers, each with its base.
pub const BASES: [(&str, u32); 3] = [("0x", 16), ("0o", 8), ("0b", 2)];

struct Reader<'a> {
    rest: &'a str,
    line: usize,
}

fn is_start(c: char) -> bool {
    c.is_ascii_alphabetic() || c == '_'
}

fn is_part(c: char) -> bool {
    c.is_ascii_alphanumeric() || c == '_'
}

impl<'a> Reader<'a> {
    fn take(&mut self, length: usize) -> &'a str {
        let (taken, rest) = self.rest.split_at(length);
        self.line += taken.matches('\n').count();
        self.rest = rest;
        taken
    }

    fn take_while(&mut self, test: impl Fn(char) -> bool) -> &'a str {
        let length = self.rest.find(|c| !test(c)).unwrap_or(self.rest.len());
        self.take(length)
    }

    /// White space and comments.
    fn pass(&mut self) {
        loop {
            self.take_while(char::is_whitespace);
            if !self.rest.starts_with("//") {
                return;
            }
            self.take_while(|c| c != '\n');
        }
    }

    fn number(&mut self) -> Token {
        for (prefix, base) in BASES {
            if self.rest.starts_with(prefix) {
                self.take(prefix.len());
                let digits = self.take_while(|c| c.is_digit(base) || c == '_');
                let digits = format!("{prefix}{}", digits.replace('_', ""));
                return Token::Number(digits, self.take_while(is_part).into());
            }
        }
        let mut digits = self
            .take_while(|c| c.is_ascii_digit() || c == '_')
            .to_string();
        let mut after = self.rest.chars();
        if after.next() == Some('.') && after.next().is_some_and(|c| c.is_ascii_digit()) {
            digits += self.take(1);
            digits += self.take_while(|c| c.is_ascii_digit() || c == '_');
        }
        let suffix = self.take_while(is_part);
        Token::Number(digits.replace('_', ""), suffix.into())
    }

    /// A text ends on its line, else its first mark stands for itself.
    fn text(&mut self) -> Token {
        let line = self.rest[1..].lines().next().unwrap_or("");
        match line.find('"') {
            Some(length) => {
                self.take(1);
                let text = self.take(length).to_string();
                self.take(1);
                Token::Text(text)
            }
            None => self.other('"'),
        }
    }

    fn other(&mut self, c: char) -> Token {
        self.take(c.len_utf8());
        Token::Other(c)
    }

    fn lifetime(&mut self) -> Token {
        self.take(1);
        if self.rest.starts_with(is_start) {
            return Token::Lifetime(self.take_while(is_part).into());
        }
        Token::Other('\'')
    }

    fn token(&mut self) -> Option<Token> {
        let c = self.rest.chars().next()?;
        if is_start(c) {
            return Some(Token::Name(self.take_while(is_part).into()));
        }
        if c.is_ascii_digit() {
            return Some(self.number());
        }
        if c == '"' {
            return Some(self.text());
        }
        if c == '\'' {
            return Some(self.lifetime());
        }
        for mark in MARKS {
            if self.rest.starts_with(mark) {
                self.take(mark.len());
                return Some(Token::Mark(mark));
            }
        }
        Some(self.other(c))
    }
}

pub fn tokens(text: &str) -> Vec<Placed> {
    let mut reader = Reader {
        rest: text,
        line: 1,
    };
    let mut all = Vec::new();
    loop {
        reader.pass();
        let line = reader.line;
        match reader.token() {
            Some(token) => all.push(Placed { token, line }),
            None => return all,
        }
    }
}

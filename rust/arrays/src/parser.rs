//! From tokens to the tree. What is not known here is an error, never passed over.

mod expressions;
mod items;
mod statements;
mod types;

use std::collections::BTreeSet;

use crate::tokens::{Placed, Token, tokens};
use crate::tree::{File, Kind};
use crate::types::is_plain;

/// Where reading ended, and at what.
#[derive(Clone, Debug, PartialEq, Eq)]
pub struct Failure {
    pub line: usize,
    pub what: String,
}

type Read<T> = Result<T, Failure>;

struct Parser {
    tokens: Vec<Placed>,
    at: usize,
    /// The names that the function which is read gives to its own.
    locals: BTreeSet<String>,
}

impl Parser {
    fn peek_at(&self, ahead: usize) -> Option<&Token> {
        self.tokens.get(self.at + ahead).map(|t| &t.token)
    }

    fn peek(&self) -> Option<&Token> {
        self.peek_at(0)
    }

    fn line(&self) -> usize {
        let last = self.tokens.last();
        self.tokens.get(self.at).or(last).map_or(1, |t| t.line)
    }

    fn fail<T>(&self, wanted: &str) -> Read<T> {
        let found = match self.peek() {
            Some(token) => format!("{token:?}"),
            None => "the end".into(),
        };
        Err(Failure {
            line: self.line(),
            what: format!("{wanted} expected, {found} found"),
        })
    }

    fn sees(&self, mark: &str) -> bool {
        matches!(self.peek(), Some(Token::Mark(m)) if *m == mark)
    }

    fn sees_word(&self, word: &str) -> bool {
        matches!(self.peek(), Some(Token::Name(n)) if n == word)
    }

    fn takes(&mut self, mark: &str) -> bool {
        let there = self.sees(mark);
        self.at += usize::from(there);
        there
    }

    fn takes_word(&mut self, word: &str) -> bool {
        let there = self.sees_word(word);
        self.at += usize::from(there);
        there
    }

    fn expect(&mut self, mark: &str) -> Read<()> {
        if self.takes(mark) {
            return Ok(());
        }
        self.fail(mark)
    }

    fn name(&mut self) -> Read<String> {
        if let Some(Token::Name(name)) = self.peek() {
            let name = name.clone();
            self.at += 1;
            return Ok(name);
        }
        self.fail("a name")
    }

    /// A number, whose suffix is none or a plain type.
    fn takes_number(&mut self) -> Read<Option<Kind>> {
        let Some(Token::Number(digits, suffix)) = self.peek() else {
            return Ok(None);
        };
        if !suffix.is_empty() && !is_plain(suffix) {
            return self.fail("a number of a plain type");
        }
        let kind = Kind::Number(digits.clone(), suffix.clone());
        self.at += 1;
        Ok(Some(kind))
    }

    /// What stands between two marks, parted by commas.
    fn list<T>(&mut self, close: &str, one: impl Fn(&mut Self) -> Read<T>) -> Read<Vec<T>> {
        let mut all = Vec::new();
        while !self.takes(close) {
            all.push(one(self)?);
            if !self.takes(",") {
                self.expect(close)?;
                break;
            }
        }
        Ok(all)
    }
}

pub fn parse(text: &str) -> Read<File> {
    let mut parser = Parser {
        tokens: tokens(text),
        at: 0,
        locals: BTreeSet::new(),
    };
    parser.file()
}

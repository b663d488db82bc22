//! Types and paths.

use super::{Parser, Read};
use crate::tokens::Token;
use crate::tree::{Path, TypeTree};

impl Parser {
    pub(super) fn path(&mut self) -> Read<Path> {
        let mut path = vec![self.name()?];
        while self.sees("::") && !matches!(self.peek_at(1), Some(Token::Mark("<"))) {
            self.at += 1;
            path.push(self.name()?);
        }
        Ok(path)
    }

    pub(super) fn type_tree(&mut self) -> Read<TypeTree> {
        if self.takes("&") {
            return self.reference();
        }
        if self.takes("[") {
            let inner = Box::new(self.type_tree()?);
            if self.takes(";") {
                let length = Box::new(self.expression()?);
                self.expect("]")?;
                return Ok(TypeTree::Array(inner, length));
            }
            self.expect("]")?;
            return Ok(TypeTree::Slice(inner));
        }
        if self.takes("(") {
            let mut all = self.list(")", Self::type_tree)?;
            if all.len() == 1 {
                return Ok(all.remove(0));
            }
            return Ok(TypeTree::Tuple(all));
        }
        if self.takes_word("impl") {
            return Ok(TypeTree::Bound(self.bound()?));
        }
        let path = self.path()?;
        let given = self.arguments()?;
        if given.is_empty() {
            return Ok(TypeTree::Path(path));
        }
        Ok(TypeTree::Generic(path, given))
    }

    /// The types in brackets behind a name; lifetimes are passed over.
    fn arguments(&mut self) -> Read<Vec<TypeTree>> {
        let mut all = Vec::new();
        if !self.takes("<") {
            return Ok(all);
        }
        while !self.takes(">") {
            if matches!(self.peek(), Some(Token::Lifetime(_))) {
                self.at += 1;
            } else {
                all.push(self.type_tree()?);
            }
            if self.splits_shift() {
                break;
            }
            if !self.takes(",") {
                self.expect(">")?;
                break;
            }
        }
        Ok(all)
    }

    /// Of the mark `>>` the first half, the second is left.
    fn splits_shift(&mut self) -> bool {
        let shift = self.sees(">>");
        if shift {
            self.tokens[self.at].token = Token::Mark(">");
        }
        shift
    }

    /// What a type parameter has to be, a trait's path, or `Fn(..) -> ..`: what it is handed.
    pub(super) fn bound(&mut self) -> Read<Vec<TypeTree>> {
        let mut handed = Vec::new();
        loop {
            self.path()?;
            self.arguments()?;
            if self.takes("(") {
                handed = self.list(")", Self::type_tree)?;
                if self.takes("->") {
                    self.type_tree()?;
                }
            }
            if !self.takes("+") {
                return Ok(handed);
            }
        }
    }

    fn reference(&mut self) -> Read<TypeTree> {
        if matches!(self.peek(), Some(Token::Lifetime(_))) {
            self.at += 1;
        }
        let mutable = self.takes_word("mut");
        let inner = Box::new(self.type_tree()?);
        Ok(TypeTree::Reference { mutable, inner })
    }
}

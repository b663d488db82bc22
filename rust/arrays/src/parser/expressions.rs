//! Expressions.

use super::{Parser, Read};
use crate::tokens::Token;
use crate::tree::{Expr, Kind, Path, Pattern, TypeTree};

/// The binary marks, from those that bind least.
const LEVELS: [&[&str]; 8] = [
    &["||"],
    &["&&"],
    &["==", "!=", "<=", ">=", "<", ">"],
    &["|"],
    &["^"],
    &["&"],
    &["<<", ">>"],
    &["+", "-"],
];

const FACTORS: [&str; 3] = ["*", "/", "%"];

impl Parser {
    /// With struct literals.
    pub(super) fn expression(&mut self) -> Read<Expr> {
        self.range(true)
    }

    /// What stands before a block: without struct literals.
    pub(super) fn head(&mut self) -> Read<Expr> {
        self.range(false)
    }

    fn range(&mut self, literals: bool) -> Read<Expr> {
        let line = self.line();
        let mut first = None;
        if !self.sees("..") {
            let value = self.level(0, literals)?;
            if !self.sees("..") && !self.sees("..=") {
                return Ok(value);
            }
            first = Some(Box::new(value));
        }
        if !self.takes("..=") {
            self.expect("..")?;
        }
        let mut last = None;
        if !self.sees("]") && !self.sees(")") {
            last = Some(Box::new(self.level(0, literals)?));
        }
        let kind = Kind::Range(first, last);
        Ok(Expr { line, kind })
    }

    fn level(&mut self, depth: usize, literals: bool) -> Read<Expr> {
        let marks = match LEVELS.get(depth) {
            Some(marks) => *marks,
            None if depth == LEVELS.len() => &FACTORS,
            None => return self.cast(literals),
        };
        let mut left = self.level(depth + 1, literals)?;
        while let Some(mark) = marks.iter().find(|m| self.sees(m)) {
            let line = self.line();
            self.at += 1;
            let right = Box::new(self.level(depth + 1, literals)?);
            let kind = Kind::Binary(mark, Box::new(left), right);
            left = Expr { line, kind };
        }
        Ok(left)
    }

    fn cast(&mut self, literals: bool) -> Read<Expr> {
        let mut value = self.unary(literals)?;
        while self.takes_word("as") {
            let line = value.line;
            let kind = Kind::Cast(Box::new(value), self.type_tree()?);
            value = Expr { line, kind };
        }
        Ok(value)
    }

    fn unary(&mut self, literals: bool) -> Read<Expr> {
        let line = self.line();
        let kind = if self.takes("-") || self.takes("!") {
            Kind::Unary(Box::new(self.unary(literals)?))
        } else if self.takes("*") {
            Kind::Deref(Box::new(self.unary(literals)?))
        } else if self.takes("&") {
            let mutable = self.takes_word("mut");
            let of = Box::new(self.unary(literals)?);
            Kind::Borrow { mutable, of }
        } else {
            return self.postfix(literals);
        };
        Ok(Expr { line, kind })
    }

    fn postfix(&mut self, literals: bool) -> Read<Expr> {
        let mut value = self.primary(literals)?;
        loop {
            let line = self.line();
            let kind = if self.takes("?") {
                Kind::Try(Box::new(value))
            } else if self.takes("[") {
                let index = Box::new(self.expression()?);
                self.expect("]")?;
                Kind::Index(Box::new(value), index)
            } else if self.takes(".") {
                let name = self.member_name()?;
                if self.takes("(") {
                    let given = self.list(")", Self::expression)?;
                    Kind::Method(Box::new(value), name, given)
                } else {
                    Kind::Field(Box::new(value), name)
                }
            } else {
                return Ok(value);
            };
            value = Expr { line, kind };
        }
    }

    fn primary(&mut self, literals: bool) -> Read<Expr> {
        let line = self.line();
        if let Some(kind) = self.takes_number()? {
            return Ok(Expr { line, kind });
        }
        if self.takes("(") {
            let mut all = self.list(")", Self::expression)?;
            if all.len() == 1 {
                return Ok(all.remove(0));
            }
            let kind = Kind::Tuple(all);
            return Ok(Expr { line, kind });
        }
        if self.sees("{") || self.sees_word("if") || self.sees_word("match") {
            return self.formed();
        }
        let kind = if self.sees("|") || self.sees("||") {
            self.closure()?
        } else if self.takes_word("let") {
            self.tested()?
        } else if self.takes_word("break") || self.takes_word("continue") {
            Kind::Leave
        } else if self.takes("[") {
            self.array()?
        } else if self.takes_word("return") {
            self.returned()?
        } else {
            self.named(literals)?
        };
        Ok(Expr { line, kind })
    }

    /// `let pattern = e` as a test, which `&&` and `||` end.
    fn tested(&mut self) -> Read<Kind> {
        let pattern = Box::new(self.pattern()?);
        self.expect("=")?;
        let of = Box::new(self.level(2, false)?);
        Ok(Kind::Let(pattern, of))
    }

    fn returned(&mut self) -> Read<Kind> {
        let mut value = None;
        if !self.sees(";") && !self.sees("}") && !self.sees(",") {
            value = Some(Box::new(self.expression()?));
        }
        Ok(Kind::Return(value))
    }

    fn array(&mut self) -> Read<Kind> {
        if self.takes("]") {
            return Ok(Kind::Items(Vec::new()));
        }
        let first = self.expression()?;
        if self.takes(";") {
            let length = self.expression()?;
            self.expect("]")?;
            return Ok(Kind::Repeat(Box::new(first), Box::new(length)));
        }
        let mut items = vec![first];
        if self.takes(",") {
            items.extend(self.list("]", Self::expression)?);
        } else {
            self.expect("]")?;
        }
        Ok(Kind::Items(items))
    }

    /// A name, a path, a call or a struct literal. Words of forms that the sources do not have are refused.
    fn named(&mut self, literals: bool) -> Read<Kind> {
        self.takes_word("move");
        if self.sees("|") || self.sees("||") {
            return self.closure();
        }
        for word in ["loop", "for", "unsafe", "while"] {
            if self.sees_word(word) {
                return self.fail("a value");
            }
        }
        if self.takes_word("true") || self.takes_word("false") {
            return Ok(Kind::Bool);
        }
        let path: Path = self.path()?;
        if self.takes("!") {
            return self.invoked(&path);
        }
        if self.takes("::") {
            self.expect("<")?;
            let length = Box::new(self.primary(false)?);
            self.expect(">")?;
            self.expect("(")?;
            let given = self.list(")", Self::expression)?;
            return Ok(Kind::Sized(path, length, given));
        }
        if self.takes("(") {
            return Ok(Kind::Call(path, self.list(")", Self::expression)?));
        }
        if literals && self.takes("{") {
            return Ok(Kind::Struct(path, self.list("}", Self::field_value)?));
        }
        Ok(Kind::Path(path))
    }

    /// A name behind a dot, or the number of a part.
    fn member_name(&mut self) -> Read<String> {
        match self.takes_number()? {
            Some(Kind::Number(digits, suffix)) if suffix.is_empty() => Ok(digits),
            Some(_) => self.fail("the number of a part"),
            None => self.name(),
        }
    }

    /// `matches!` or `write!`, and no other macro.
    fn invoked(&mut self, path: &Path) -> Read<Kind> {
        match path.concat().as_str() {
            "matches" => self.expect("(")?,
            "write" => {
                self.expect("(")?;
                return Ok(Kind::Tuple(self.list(")", Self::printed)?));
            }
            _ => return self.fail("a known macro"),
        }
        let of = Box::new(self.expression()?);
        self.expect(",")?;
        let pattern = Box::new(self.pattern()?);
        let mut test = None;
        if self.takes_word("if") {
            test = Some(Box::new(self.expression()?));
        }
        self.expect(")")?;
        Ok(Kind::Matches(of, test, pattern))
    }

    /// A value that is printed, or a text, which has no value here.
    fn printed(&mut self) -> Read<Expr> {
        let line = self.line();
        if !matches!(self.peek(), Some(Token::Text(_))) {
            return self.expression();
        }
        self.at += 1;
        let kind = Kind::Tuple(Vec::new());
        Ok(Expr { line, kind })
    }

    /// The parameters may have types; a body with clauses stands in a block.
    fn closure(&mut self) -> Read<Kind> {
        let mut parameters = Vec::new();
        if !self.takes("||") {
            self.expect("|")?;
            parameters = self.list("|", Self::closed_over)?;
        }
        if self.takes("->") {
            self.type_tree()?;
        }
        self.clauses()?;
        Ok(Kind::Closure(parameters, Box::new(self.expression()?)))
    }

    fn closed_over(&mut self) -> Read<(Pattern, Option<TypeTree>)> {
        let pattern = self.one_pattern()?;
        let mut annotation = None;
        if self.takes(":") {
            annotation = Some(self.type_tree()?);
        }
        Ok((pattern, annotation))
    }

    fn field_value(&mut self) -> Read<(String, Expr)> {
        let line = self.line();
        if self.takes("..") {
            return Ok((String::new(), self.expression()?));
        }
        let name = self.name()?;
        if self.takes(":") {
            return Ok((name, self.expression()?));
        }
        let kind = Kind::Path(vec![name.clone()]);
        Ok((name, Expr { line, kind }))
    }
}

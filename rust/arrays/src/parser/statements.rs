//! Blocks, statements and patterns.

use super::{Parser, Read};
use crate::tree::{Arm, Block, Expr, Kind, Let, Pattern, Statement};

impl Parser {
    pub(super) fn block(&mut self) -> Read<Block> {
        self.expect("{")?;
        let mut statements = Vec::new();
        while !self.takes("}") {
            if self.takes_word("let") {
                statements.push(Statement::Let(self.binding()?));
                continue;
            }
            let formed = self.sees_formed();
            let value = if formed {
                self.formed()?
            } else {
                self.assignment()?
            };
            if self.takes("}") {
                let tail = Some(Box::new(value));
                return Ok(Block { statements, tail });
            }
            if !self.takes(";") && !formed {
                return self.fail(";");
            }
            statements.push(Statement::Expr(value));
        }
        let tail = None;
        Ok(Block { statements, tail })
    }

    fn binding(&mut self) -> Read<Let> {
        let line = self.line();
        let pattern = self.pattern()?;
        let mut annotation = None;
        if self.takes(":") {
            annotation = Some(self.type_tree()?);
        }
        let mut value = None;
        let mut other = None;
        if self.takes("=") {
            value = Some(self.expression()?);
            if self.takes_word("else") {
                other = Some(self.block()?);
            }
        }
        self.expect(";")?;
        Ok(Let {
            line,
            pattern,
            annotation,
            value,
            other,
        })
    }

    fn assignment(&mut self) -> Read<Expr> {
        let line = self.line();
        let place = self.expression()?;
        for mark in [
            "=", "+=", "-=", "*=", "/=", "%=", "<<=", ">>=", "&=", "|=", "^=",
        ] {
            if self.takes(mark) {
                let value = Box::new(self.expression()?);
                let kind = Kind::Assign(Box::new(place), value);
                return Ok(Expr { line, kind });
            }
        }
        Ok(place)
    }

    /// Whether what stands here ends with its own block.
    fn sees_formed(&self) -> bool {
        let words = ["if", "match", "while", "for"];
        self.sees("{") || words.iter().any(|w| self.sees_word(w))
    }

    /// `if`, `match`, `while`, `for` or a block.
    pub(super) fn formed(&mut self) -> Read<Expr> {
        let line = self.line();
        let kind = if self.takes_word("if") {
            self.condition()?
        } else if self.takes_word("match") {
            let of = Box::new(self.head()?);
            self.expect("{")?;
            let mut arms = Vec::new();
            while !self.takes("}") {
                arms.push(self.arm()?);
            }
            Kind::Match(of, arms)
        } else if self.takes_word("for") {
            let pattern = self.pattern()?;
            if !self.takes_word("in") {
                return self.fail("in");
            }
            let of = Box::new(self.head()?);
            Kind::For(pattern, of, self.block()?)
        } else if self.takes_word("while") {
            let test = Box::new(self.head()?);
            Kind::While(test, self.block()?)
        } else {
            Kind::Block(self.block()?)
        };
        Ok(Expr { line, kind })
    }

    fn condition(&mut self) -> Read<Kind> {
        let test = Box::new(self.head()?);
        let then = self.block()?;
        let mut other = None;
        if self.takes_word("else") {
            if !self.sees("{") && !self.sees_word("if") {
                return self.fail("{ or if");
            }
            other = Some(Box::new(self.formed()?));
        }
        Ok(Kind::If { test, then, other })
    }

    fn arm(&mut self) -> Read<Arm> {
        let pattern = self.pattern()?;
        let mut test = None;
        if self.takes_word("if") {
            test = Some(self.expression()?);
        }
        self.expect("=>")?;
        let block = self.sees("{");
        let value = if block {
            self.formed()?
        } else {
            self.assignment()?
        };
        if !self.takes(",") && !block && !self.sees("}") {
            return self.fail(",");
        }
        Ok(Arm {
            pattern,
            test,
            value,
        })
    }

    pub(super) fn pattern(&mut self) -> Read<Pattern> {
        let mut all = vec![self.one_pattern()?];
        while self.takes("|") {
            all.push(self.one_pattern()?);
        }
        if all.len() == 1 {
            return Ok(all.remove(0));
        }
        Ok(Pattern::Either(all))
    }

    /// One of those that `|` parts.
    pub(super) fn one_pattern(&mut self) -> Read<Pattern> {
        if self.takes("&") {
            return Ok(Pattern::Behind(Box::new(self.one_pattern()?)));
        }
        if self.takes("(") {
            return Ok(Pattern::Parts(self.list(")", Self::pattern)?));
        }
        self.takes_word("mut");
        if self.takes_word("_") {
            return Ok(Pattern::Any);
        }
        if self.takes_word("true") || self.takes_word("false") {
            return Ok(Pattern::Value);
        }
        if self.takes_number()?.is_some() {
            if self.takes("..=") || self.takes("..") {
                self.takes_number()?;
            }
            return Ok(Pattern::Value);
        }
        let path = self.path()?;
        if self.takes("(") {
            return Ok(Pattern::Tuple(path, self.list(")", Self::pattern)?));
        }
        if self.takes("{") {
            return Ok(Pattern::Struct(path, self.field_patterns()?));
        }
        if path.len() == 1 {
            self.locals.insert(path.concat());
            return Ok(Pattern::Name(path.concat()));
        }
        Ok(Pattern::Path(path))
    }

    /// Fields by their names; `..` at the end stands for the others.
    fn field_patterns(&mut self) -> Read<Vec<(String, Pattern)>> {
        let mut all = Vec::new();
        while !self.takes("}") {
            if self.takes("..") {
                self.expect("}")?;
                break;
            }
            all.push(self.field_pattern()?);
            if !self.takes(",") {
                self.expect("}")?;
                break;
            }
        }
        Ok(all)
    }

    fn field_pattern(&mut self) -> Read<(String, Pattern)> {
        let name = self.name()?;
        if self.takes(":") {
            return Ok((name, self.pattern()?));
        }
        self.locals.insert(name.clone());
        Ok((name.clone(), Pattern::Name(name)))
    }
}

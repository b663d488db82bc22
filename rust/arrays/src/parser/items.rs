//! Items of a file: uses, modules, constants, types, functions.

use super::{Parser, Read};
use crate::tokens::Token;
use crate::tree::{Constant, Definition, File, Function, Parameter, TypeTree, Variant};

/// What is derived: none of these has an array.
const DERIVED: [&str; 10] = [
    "Clone",
    "Copy",
    "Debug",
    "Default",
    "PartialEq",
    "Eq",
    "PartialOrd",
    "Ord",
    "Hash",
    "Drop",
];

/// A type that a call gives, and what it is handed where it is called.
type Called = (String, Vec<TypeTree>);

impl Parser {
    pub(super) fn file(&mut self) -> Read<File> {
        let mut file = File::default();
        self.inner_attributes()?;
        while self.peek().is_some() {
            self.item(&mut file)?;
        }
        Ok(file)
    }

    fn item(&mut self, file: &mut File) -> Read<()> {
        if self.takes_word("ghost") {
            return self.ghost_use();
        }
        let public = self.visibility()?;
        if self.takes_word("use") {
            return self.used(file);
        }
        if self.takes_word("mod") {
            file.modules.push((self.name()?, public));
            return self.expect(";");
        }
        if self.takes_word("type") {
            let name = self.name()?;
            self.expect("=")?;
            let tree = self.type_tree()?;
            file.types.push((name, Definition::Alias(tree)));
            return self.expect(";");
        }
        if self.takes_word("struct") {
            let name = self.name()?;
            self.lifetimes()?;
            self.expect("{")?;
            let fields = self.fields()?;
            file.types.push((name, Definition::Struct(fields)));
            return Ok(());
        }
        if self.takes_word("enum") {
            let name = self.name()?;
            self.expect("{")?;
            let variants = self.list("}", Self::variant)?;
            file.types.push((name, Definition::Enum(variants)));
            return Ok(());
        }
        if self.takes_word("impl") {
            return self.implementation(file);
        }
        self.member(file, None, public)
    }

    /// A path, or several that begin alike: `a::{b, c}`, of single names.
    fn used(&mut self, file: &mut File) -> Read<()> {
        let mut path = vec![self.name()?];
        while self.takes("::") {
            if self.takes("{") {
                for name in self.list("}", Self::used_name)? {
                    file.uses.push([path.as_slice(), &[name]].concat());
                }
                return self.expect(";");
            }
            path.push(self.name()?);
        }
        file.uses.push(path);
        self.expect(";")
    }

    fn used_name(&mut self) -> Read<String> {
        if self.sees_word("self") {
            return self.fail("a name of its own");
        }
        self.name()
    }

    fn ghost_use(&mut self) -> Read<()> {
        if !self.takes_word("use") {
            return self.fail("use");
        }
        while !self.takes(";") {
            if self.peek().is_none() {
                return self.fail(";");
            }
            self.at += 1;
        }
        Ok(())
    }

    /// `#![tactic(..)]`, of proofs alone.
    fn inner_attributes(&mut self) -> Read<()> {
        while self.sees("#") && matches!(self.peek_at(1), Some(Token::Mark("!"))) {
            self.at += 2;
            self.expect("[")?;
            if !self.takes_word("tactic") {
                return self.fail("tactic");
            }
            self.expect("(")?;
            self.list(")", Self::name)?;
            self.expect("]")?;
        }
        Ok(())
    }

    /// An attribute that changes no code: its name alone, `derive` of what std writes, of proofs, or `unsafe(no_mangle)`.
    fn attribute(&mut self) -> Read<()> {
        self.expect("[")?;
        let words = match self.name()?.as_str() {
            "derive" => &DERIVED[..],
            "unsafe" => &["no_mangle"],
            "tactic" => {
                self.expect("(")?;
                self.past("(", ")")?;
                return self.expect("]");
            }
            _ => return self.expect("]"),
        };
        self.expect("(")?;
        for name in self.list(")", Self::name)? {
            if !words.contains(&name.as_str()) {
                return self.fail("a known attribute");
            }
        }
        self.expect("]")
    }

    /// Attributes and `pub`: whether the item is for other crates.
    fn visibility(&mut self) -> Read<bool> {
        while self.takes("#") {
            self.attribute()?;
        }
        if !self.takes_word("pub") {
            return Ok(false);
        }
        if !self.takes("(") {
            return Ok(true);
        }
        if !self.takes_word("crate") {
            return self.fail("crate");
        }
        self.expect(")")?;
        Ok(false)
    }

    /// Fields; those of proofs alone are passed over.
    fn fields(&mut self) -> Read<Vec<(String, TypeTree)>> {
        let mut all = Vec::new();
        while !self.takes("}") {
            self.visibility()?;
            if self.takes_word("ghost") {
                self.name()?;
                self.expect(":")?;
                self.expect("{")?;
                self.past("{", "}")?;
            } else {
                let name = self.name()?;
                self.expect(":")?;
                all.push((name, self.type_tree()?));
            }
            if !self.takes(",") {
                self.expect("}")?;
                break;
            }
        }
        Ok(all)
    }

    /// To the mark that closes what is open.
    fn past(&mut self, open: &str, close: &'static str) -> Read<()> {
        let mut depth = 1;
        while 0 < depth {
            if self.peek().is_none() {
                return self.fail(close);
            }
            depth += usize::from(self.sees(open));
            depth -= usize::from(self.sees(close));
            self.at += 1;
        }
        Ok(())
    }

    fn field(&mut self) -> Read<(String, TypeTree)> {
        self.visibility()?;
        let name = self.name()?;
        self.expect(":")?;
        Ok((name, self.type_tree()?))
    }

    fn variant(&mut self) -> Read<Variant> {
        self.visibility()?;
        let name = self.name()?;
        let mut fields = Vec::new();
        if self.takes("{") {
            fields = self.list("}", Self::field)?;
        } else if self.takes("(") {
            let types = self.list(")", Self::type_tree)?;
            let numbered = types.into_iter().enumerate();
            fields = numbered.map(|(i, t)| (i.to_string(), t)).collect();
        }
        Ok(Variant { name, fields })
    }

    fn implementation(&mut self, file: &mut File) -> Read<()> {
        self.lifetimes()?;
        let mut path = self.path()?;
        self.passes_brackets()?;
        let mut public = false;
        if self.takes_word("for") {
            public = true;
            path = self.path()?;
            self.passes_brackets()?;
        }
        let of = path.pop().unwrap_or_default();
        self.expect("{")?;
        while !self.takes("}") {
            if self.takes_word("ghost") {
                self.past_ghost()?;
                continue;
            }
            if self.takes_word("type") {
                self.name()?;
                self.expect("=")?;
                self.type_tree()?;
                self.expect(";")?;
                continue;
            }
            let own = self.visibility()?;
            self.member(file, Some(&of), own || public)?;
        }
        Ok(())
    }

    /// `ghost use ..;` or `ghost name = { .. };`.
    fn past_ghost(&mut self) -> Read<()> {
        if self.sees_word("use") {
            return self.ghost_use();
        }
        self.name()?;
        self.expect("=")?;
        self.expect("{")?;
        self.past("{", "}")?;
        self.expect(";")
    }

    /// Types in brackets behind a trait or a type, of which nothing is asked.
    fn passes_brackets(&mut self) -> Read<()> {
        if self.takes("<") {
            self.past("<", ">")?;
        }
        Ok(())
    }

    /// A constant or a function, of a file or of an `impl` block.
    fn member(&mut self, file: &mut File, of: Option<&str>, public: bool) -> Read<()> {
        let of = of.map(str::to_string);
        if self.takes_word("const") {
            let name = self.name()?;
            self.expect(":")?;
            let annotation = self.type_tree()?;
            self.expect("=")?;
            let value = self.expression()?;
            file.constants.push(Constant {
                name,
                of,
                annotation,
                value,
            });
            return self.expect(";");
        }
        if self.takes_word("extern") && !matches!(self.peek(), Some(Token::Text(_))) {
            return self.fail("a text");
        }
        if matches!(self.peek(), Some(Token::Text(_))) {
            self.at += 1;
        }
        if self.takes_word("fn") {
            let function = self.function(of, public)?;
            file.functions.push(function);
            return Ok(());
        }
        self.fail("an item")
    }

    fn function(&mut self, of: Option<String>, public: bool) -> Read<Function> {
        let line = self.line();
        let name = self.name()?;
        self.locals.clear();
        let (length, called) = self.generics()?;
        self.expect("(")?;
        let mut parameters = self.list(")", Self::parameter)?;
        for parameter in &mut parameters {
            let TypeTree::Path(path) = &parameter.annotation else {
                continue;
            };
            if let Some((_, handed)) = called.iter().find(|(name, _)| *name == path.concat()) {
                parameter.annotation = TypeTree::Bound(handed.clone());
            }
        }
        let mut result = None;
        if self.takes("->") {
            result = Some(self.type_tree()?);
        }
        self.clauses()?;
        let body = self.block()?;
        Ok(Function {
            name,
            line,
            public,
            of,
            length,
            locals: std::mem::take(&mut self.locals),
            parameters,
            result,
            body,
        })
    }

    /// Lifetimes alone.
    fn lifetimes(&mut self) -> Read<()> {
        match self.generics()? {
            (None, called) if called.is_empty() => Ok(()),
            _ => self.fail("lifetimes"),
        }
    }

    /// Lifetimes, types with their bounds, and the name of a length: that name, and the types with what they are handed.
    fn generics(&mut self) -> Read<(Option<String>, Vec<Called>)> {
        let (mut length, mut called) = (None, Vec::new());
        if !self.takes("<") {
            return Ok((length, called));
        }
        while !self.takes(">") {
            if matches!(self.peek(), Some(Token::Lifetime(_))) {
                self.at += 1;
            } else if self.takes_word("const") {
                if length.is_some() {
                    return self.fail("one length");
                }
                length = Some(self.name()?);
                self.expect(":")?;
                self.type_tree()?;
            } else {
                let name = self.name()?;
                let mut handed = Vec::new();
                if self.takes(":") {
                    handed = self.bound()?;
                }
                called.push((name, handed));
            }
            self.takes(",");
        }
        Ok((length, called))
    }

    /// `self`, `mut self`, `&self`, `&mut self`, or a name with its type.
    fn parameter(&mut self) -> Read<Parameter> {
        let line = self.line();
        let lent = self.takes("&");
        let mutable = self.takes_word("mut");
        let name = self.name()?;
        self.locals.insert(name.clone());
        let own = TypeTree::Path(vec!["Self".into()]);
        let annotation = if lent {
            if name != "self" {
                return self.fail("self");
            }
            TypeTree::Reference {
                mutable,
                inner: Box::new(own),
            }
        } else if name == "self" {
            own
        } else {
            self.expect(":")?;
            self.type_tree()?
        };
        Ok(Parameter {
            name,
            line,
            annotation,
        })
    }

    /// `requires` and `ensures`, passed over by their braces.
    pub(super) fn clauses(&mut self) -> Read<()> {
        while self.takes_word("requires") || self.takes_word("ensures") {
            if matches!(self.peek(), Some(Token::Name(_))) {
                self.at += 1;
            }
            self.expect("{")?;
            self.past("{", "}")?;
        }
        Ok(())
    }
}

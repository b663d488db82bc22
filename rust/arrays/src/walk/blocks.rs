//! Blocks, statements, branches and loops.

use super::{Ask, Value, Walker};
use crate::leads::block_parts;
use crate::tree::{Arm, Block, Expr, Kind, Let, Pattern, Statement};
use crate::types::Type;

/// Whether a block leaves the function at its end.
fn leaves(block: &Block) -> bool {
    let last = match (&block.tail, block.statements.last()) {
        (Some(tail), _) => tail,
        (None, Some(Statement::Expr(value))) => value,
        _ => return false,
    };
    expression_leaves(last)
}

fn expression_leaves(value: &Expr) -> bool {
    match &value.kind {
        Kind::Return(_) | Kind::Leave => true,
        Kind::Block(block) => leaves(block),
        Kind::If { then, other, .. } => {
            leaves(then) && other.as_ref().is_some_and(|e| expression_leaves(e))
        }
        Kind::Match(_, arms) => arms.iter().all(|arm| expression_leaves(&arm.value)),
        _ => false,
    }
}

fn values_of(statement: &Statement) -> Vec<&Expr> {
    match statement {
        Statement::Let(binding) => {
            let other = binding.other.iter().flat_map(block_parts);
            binding.value.iter().chain(other).collect()
        }
        Statement::Expr(value) => vec![value],
    }
}

/// The value of branches: of a type that one of them has, wherever one of them lies.
fn merged(values: Vec<Value>) -> Value {
    let mut merged = Value::passed();
    for value in values {
        merged.of = merged.of.or(value.of);
        merged.storage.extend(value.storage);
    }
    merged
}

impl<'p> Walker<'p> {
    fn block_leads(&self, block: &Block) -> bool {
        block_parts(block)
            .into_iter()
            .any(|e| self.leads_to_choice(e))
    }

    pub(super) fn block(&mut self, block: &'p Block, ask: Ask) -> Value {
        let locals = self.frame().locals.len();
        let alive = self.alive.len();
        let end = Ask {
            later: if leaves(block) {
                self.frame().later
            } else {
                ask.later
            },
            ..ask
        };
        for (i, statement) in block.statements.iter().enumerate() {
            let behind = block.statements[i + 1..].iter().flat_map(values_of);
            let mut behind = behind.chain(block.tail.as_deref());
            let later = end.later || behind.any(|e| self.leads_to_choice(e));
            self.statement(statement, later);
        }
        let value = match &block.tail {
            Some(tail) => self.value(tail, end),
            None => Value::new(Type::Unit),
        };
        self.frame().locals.truncate(locals);
        self.alive.truncate(alive);
        value
    }

    /// A block that is a value: a new one.
    pub(super) fn inner_block(&mut self, line: usize, block: &'p Block, ask: Ask) -> Value {
        let value = self.block(block, ask.bound());
        self.fresh(line, value.of, ask)
    }

    fn statement(&mut self, statement: &'p Statement, later: bool) {
        let alive = self.alive.len();
        match statement {
            Statement::Let(binding) => self.binding(binding, later),
            Statement::Expr(value) => {
                let bound = false;
                self.value(value, Ask { later, bound });
                self.alive.truncate(alive);
            }
        }
    }

    /// Values without a name end with the statement, unless the local refers to them.
    fn binding(&mut self, binding: &'p Let, later: bool) {
        let alive = self.alive.len();
        let mut value = Value::passed();
        if let Some(given) = &binding.value {
            value = self.value(given, Ask { later, bound: true });
        }
        if let Some(tree) = &binding.annotation {
            let told = self.program.type_of(self.scope(), tree);
            value.of = self.told(binding.line, told);
        } else if later && binding.value.is_none() {
            let what = format!("the type of {} cannot be told", named(&binding.pattern));
            self.find(binding.line, &what);
        }
        if !self.program.lends(&value.of) {
            self.alive.truncate(alive);
        }
        if let Some(other) = &binding.other {
            self.block(
                other,
                Ask {
                    later,
                    bound: false,
                },
            );
        }
        self.bind(binding.line, &binding.pattern, value, later);
    }

    pub(super) fn condition(
        &mut self,
        line: usize,
        test: &'p Expr,
        (then, other): (&'p Block, &'p Option<Box<Expr>>),
        ask: Ask,
    ) -> Value {
        let alive = self.alive.len();
        let other = other.as_deref();
        let behind = self.block_leads(then) || other.is_some_and(|e| self.leads_to_choice(e));
        let locals = self.frame().locals.len();
        self.value(test, ask.or(behind).unbound());
        let first = self.block(then, ask.bound());
        self.frame().locals.truncate(locals);
        self.alive.truncate(alive);
        let second = match other {
            Some(other) => self.value(other, ask.bound()),
            None => Value::new(Type::Unit),
        };
        self.branched(line, vec![first, second], ask)
    }

    /// The value of branches. Where it is no reference, it is a new one.
    fn branched(&mut self, line: usize, values: Vec<Value>, ask: Ask) -> Value {
        let value = merged(values);
        if value.of.is_reference() {
            return value;
        }
        self.fresh(line, value.of, ask)
    }

    pub(super) fn matched(
        &mut self,
        line: usize,
        of: &'p Expr,
        arms: &'p [Arm],
        ask: Ask,
    ) -> Value {
        let leads = |arm: &Arm| {
            let mut values = arm.test.iter().chain([&arm.value]);
            values.any(|e| self.leads_to_choice(e))
        };
        let behind: Vec<bool> = arms.iter().map(leads).collect();
        let any = behind.contains(&true);
        let seen = self.value(of, ask.or(any).unbound());
        let mut values = Vec::new();
        for (arm, leads) in arms.iter().zip(behind) {
            let locals = self.frame().locals.len();
            let alive = self.alive.len();
            let later = ask.later || leads;
            self.bind(arm.value.line, &arm.pattern, seen.clone(), later);
            if let Some(test) = &arm.test {
                self.value(test, ask.or(later).unbound());
            }
            values.push(self.value(&arm.value, ask.bound()));
            self.frame().locals.truncate(locals);
            self.alive.truncate(alive);
        }
        self.branched(line, values, ask)
    }

    pub(super) fn bind(&mut self, line: usize, pattern: &'p Pattern, seen: Value, later: bool) {
        match pattern {
            Pattern::Any | Pattern::Value => {}
            Pattern::Name(name) => self.bind_name(line, name, seen, later),
            Pattern::Path(path) => drop(self.payload(line, path)),
            Pattern::Either(all) => {
                for pattern in all {
                    self.bind(line, pattern, seen.clone(), later);
                }
            }
            Pattern::Behind(inner) => {
                let of = seen.of.target().clone();
                self.bind(line, inner, Value { of, ..seen }, later);
            }
            Pattern::Parts(inner) => {
                let parts = match seen.of.target() {
                    Type::Tuple(parts) if parts.len() == inner.len() => parts.clone(),
                    _ => vec![Type::Passed; inner.len()],
                };
                self.bind_each(line, parts.into_iter().zip(inner), &seen, later);
            }
            Pattern::Tuple(path, inner) if is_perhaps(path) => {
                let of = match seen.of.target() {
                    Type::Perhaps(of) if path.concat() != "Err" => (**of).clone(),
                    _ => Type::Passed,
                };
                self.bind_each(line, inner.iter().map(|p| (of.clone(), p)), &seen, later);
            }
            Pattern::Tuple(path, inner) => {
                let fields = self.payload(line, path);
                if fields.len() != inner.len() {
                    self.find(line, &format!("the payload of {} differs", path.join("::")));
                }
                let fields = fields.into_iter().map(|(_, of)| of);
                self.bind_each(line, fields.zip(inner), &seen, later);
            }
            Pattern::Struct(path, inner) => self.bind_fields(line, (path, inner), &seen, later),
        }
    }

    /// A name that is no constant's is a new local.
    fn bind_name(&mut self, line: usize, name: &'p String, seen: Value, later: bool) {
        let path = std::slice::from_ref(name);
        let whole = self.program.whole(self.scope(), path);
        let constant = whole.is_some_and(|whole| self.program.constants.contains_key(&whole));
        if name != "None" && !constant {
            self.declare(line, name, seen, later);
        }
    }

    /// Parts of a value, each with its type.
    fn bind_each(
        &mut self,
        line: usize,
        parts: impl Iterator<Item = (Type, &'p Pattern)>,
        seen: &Value,
        later: bool,
    ) {
        for (of, pattern) in parts {
            self.bind(line, pattern, part_of(seen, of), later);
        }
    }

    fn bind_fields(
        &mut self,
        line: usize,
        (path, inner): (&'p [String], &'p [(String, Pattern)]),
        seen: &Value,
        later: bool,
    ) {
        let fields = self.payload(line, path);
        for (name, pattern) in inner {
            match fields.iter().find(|(n, _)| n == name) {
                Some((_, of)) => self.bind(line, pattern, part_of(seen, of.clone()), later),
                None => self.find(line, &format!("no field `{name}` in the pattern")),
            }
        }
    }

    fn payload(&mut self, line: usize, path: &[String]) -> Vec<(String, Type)> {
        let variant = self.program.variant(self.scope(), path);
        let own = || Some((self.program.whole(self.scope(), path)?, 0));
        let known = |(whole, _): &(String, usize)| self.program.types.contains_key(whole);
        let named = variant.or_else(own).filter(known);
        let fields = named.map(|(whole, at)| self.program.fields(&whole, at));
        match fields {
            Some(Ok(fields)) => fields,
            Some(Err(what)) => {
                self.find(line, &what);
                Vec::new()
            }
            None => {
                self.find(
                    line,
                    &format!("the pattern {} is not known", path.join("::")),
                );
                Vec::new()
            }
        }
    }

    /// A pattern that is tested; what it names stands to the end of what the test is of.
    pub(super) fn tested(
        &mut self,
        line: usize,
        pattern: &'p Pattern,
        of: &'p Expr,
        ask: Ask,
    ) -> Value {
        let seen = self.value(of, ask.unbound());
        self.bind(line, pattern, seen, ask.later);
        Value::new(Type::plain("bool"))
    }

    /// What a pattern in `matches!` names stands in its test alone.
    pub(super) fn matches(
        &mut self,
        line: usize,
        of: &'p Expr,
        (test, pattern): (&'p Option<Box<Expr>>, &'p Pattern),
        ask: Ask,
    ) -> Value {
        let locals = self.frame().locals.len();
        self.tested(line, pattern, of, ask);
        if let Some(test) = test {
            self.value(test, ask.unbound());
        }
        self.frame().locals.truncate(locals);
        Value::new(Type::plain("bool"))
    }

    /// One of what there is for each turn, which is an entry where it is an array.
    pub(super) fn each_of(
        &mut self,
        pattern: &'p Pattern,
        of: &'p Expr,
        body: &'p Block,
        ask: Ask,
    ) -> Value {
        let leads = self.leads_to_choice(of) || self.block_leads(body);
        let ask = ask.or(leads).unbound();
        let (locals, alive) = (self.frame().locals.len(), self.alive.len());
        let all = self.value(of, ask);
        let entry = match all.of.target() {
            Type::Array(inner, _) | Type::Slice(inner) | Type::Perhaps(inner) => {
                part_of(&all, (**inner).clone())
            }
            _ => Value {
                of: Type::Passed,
                storage: all.storage.clone(),
            },
        };
        self.loops += 1;
        if self.choice.is_some() {
            let place = self.place(of.line);
            self.way.seen.loops.insert(place);
        }
        self.bind(of.line, pattern, entry, ask.later);
        self.block(body, ask);
        self.loops -= 1;
        self.frame().locals.truncate(locals);
        self.alive.truncate(alive);
        Value::new(Type::Unit)
    }

    /// A loop's body counts whole: what stands behind a choice in it comes before the next one.
    pub(super) fn repeated(&mut self, test: &'p Expr, body: &'p Block, ask: Ask) -> Value {
        let leads = self.leads_to_choice(test) || self.block_leads(body);
        let ask = ask.or(leads).unbound();
        let (locals, alive) = (self.frame().locals.len(), self.alive.len());
        self.loops += 1;
        if self.choice.is_some() {
            let place = self.place(test.line);
            self.way.seen.loops.insert(place);
        }
        self.value(test, ask);
        self.block(body, ask);
        self.loops -= 1;
        self.frame().locals.truncate(locals);
        self.alive.truncate(alive);
        Value::new(Type::Unit)
    }

    pub(super) fn returned(&mut self, given: Option<&'p Expr>) -> Value {
        let later = self.frame().later;
        let bound = false;
        if let Some(given) = given {
            self.value(given, Ask { later, bound });
        }
        Value::passed()
    }
}

/// `Some`, `Ok` or `Err`.
fn is_perhaps(path: &[String]) -> bool {
    ["Some", "Ok", "Err"].contains(&path.concat().as_str())
}

/// The first name that a pattern gives.
fn named(pattern: &Pattern) -> String {
    match pattern {
        Pattern::Name(name) => format!("`{name}`"),
        _ => "a pattern".into(),
    }
}

/// A part of a value: behind a reference it is one too.
fn part_of(whole: &Value, of: Type) -> Value {
    let mut part = Value::new(of);
    if !matches!(whole.of, Type::Reference { .. }) {
        part.storage.extend(whole.storage.iter().copied());
    }
    if let Type::Reference { mutable, .. } = whole.of {
        let inner = Box::new(part.of);
        part.of = Type::Reference { mutable, inner };
        part.storage.clone_from(&whole.storage);
    }
    part
}

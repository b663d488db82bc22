//! Names, fields, entries and literals.

use super::{Ask, Value, Walker};
use crate::constants::number;
use crate::program::Scope;
use crate::tree::{Expr, Kind, Pattern, TypeTree};
use crate::types::Type;

/// Of two types of numbers the one that is stated.
fn stated(left: Type, right: Type) -> Type {
    if left == Type::plain("number") {
        return right;
    }
    left.or(right)
}

impl<'p> Walker<'p> {
    /// A local, a constant, or a variant without payload.
    pub(super) fn named(&mut self, line: usize, path: &'p [String], ask: Ask) -> Value {
        if let Some(value) = self.local(path) {
            return value;
        }
        if path.concat() == "None" {
            return Value::new(Type::Perhaps(Box::new(Type::Passed)));
        }
        if let Some((whole, _)) = self.program.variant(self.scope(), path) {
            return self.fresh(line, Type::Named(whole), ask);
        }
        let whole = self.program.whole(self.scope(), path);
        if let Some(item) = whole.and_then(|whole| self.program.constants.get(&whole)) {
            let scope = Scope {
                of: item.value.of.as_deref(),
                ..Scope::of_module(item.module)
            };
            let told = self.program.type_of(scope, &item.value.annotation);
            let of = self.told(line, told);
            return self.fresh(line, of, ask);
        }
        let whole = self.program.whole(self.scope(), path);
        if let Some(entry) = whole.and_then(|w| self.program.functions.get_key_value(&w)) {
            return self.handed_on(line, entry, ask);
        }
        self.unread(line, &format!("`{}` is not known", path.join("::")))
    }

    /// The local that a path names.
    pub(super) fn local(&mut self, path: &[String]) -> Option<Value> {
        let [name] = path else { return None };
        let mut locals = self.frame().locals.iter().rev();
        let found = locals.find(|(n, _)| n == name);
        found.map(|(_, value)| value.clone())
    }

    /// What is there, or the function is left.
    pub(super) fn tried(&mut self, of: &'p Expr, ask: Ask) -> Value {
        let mut value = self.value(of, ask);
        if let Type::Perhaps(inner) = value.of {
            value.of = *inner;
        }
        value
    }

    /// A closure counts where it is written, with all that is done in it.
    pub(super) fn closure(
        &mut self,
        line: usize,
        parameters: &'p [(Pattern, Option<TypeTree>)],
        body: &'p Expr,
        ask: Ask,
    ) -> Value {
        let locals = self.frame().locals.len();
        let alive = self.alive.len();
        let mut handed = std::mem::take(&mut self.handed).into_iter();
        for (pattern, annotation) in parameters {
            let mut value = handed.next().unwrap_or_else(Value::passed);
            if let Some(tree) = annotation {
                let told = self.program.type_of(self.scope(), tree);
                value.of = self.told(line, told);
            }
            self.bind(line, pattern, value, ask.later);
        }
        self.may_go_on(alive);
        let value = self.value(body, ask.bound());
        self.frame().locals.truncate(locals);
        self.alive.truncate(alive);
        value
    }

    pub(super) fn tuple(&mut self, line: usize, parts: &'p [Expr], ask: Ask) -> Value {
        let values = self.each(parts, ask);
        if values.is_empty() {
            return Value::new(Type::Unit);
        }
        let of = Type::Tuple(values.iter().map(|v| v.of.clone()).collect());
        self.holding(line, of, &values, ask)
    }

    /// A range by itself, whose numbers come one by one.
    pub(super) fn range(&mut self, ends: impl Iterator<Item = &'p Box<Expr>>, ask: Ask) -> Value {
        let mut of = Type::Passed;
        for end in ends {
            of = stated(of, self.value(end, ask.unbound()).of);
        }
        Value::new(Type::Perhaps(Box::new(of)))
    }

    pub(super) fn behind(&mut self, line: usize, of: &'p Expr, ask: Ask) -> Value {
        let value = self.value(of, ask.unbound());
        match value.of {
            Type::Passed => value,
            Type::Reference { inner, .. } => Value {
                of: *inner,
                storage: value.storage,
            },
            other => self.unread(line, &format!("{other} is no reference")),
        }
    }

    pub(super) fn lent(&mut self, mutable: bool, of: &'p Expr, ask: Ask) -> Value {
        let value = self.value(of, ask.unbound());
        if value.of == Type::Passed {
            return value;
        }
        let inner = Box::new(value.of);
        Value {
            of: Type::Reference { mutable, inner },
            storage: value.storage,
        }
    }

    pub(super) fn cast(&mut self, line: usize, of: &'p Expr, tree: &TypeTree, ask: Ask) -> Value {
        self.value(of, ask.unbound());
        let told = self.program.type_of(self.scope(), tree);
        Value::new(self.told(line, told))
    }

    pub(super) fn binary(
        &mut self,
        mark: &str,
        left: &'p Expr,
        right: &'p Expr,
        ask: Ask,
    ) -> Value {
        let ask = ask.unbound();
        let later = self.leads_to_choice(right);
        let left = self.value(left, ask.or(later)).of;
        let right = self.value(right, ask).of;
        if ["==", "!=", "<", ">", "<=", ">=", "&&", "||"].contains(&mark) {
            return Value::new(Type::plain("bool"));
        }
        Value::new(stated(left, right))
    }

    pub(super) fn field(&mut self, line: usize, of: &'p Expr, name: &str, ask: Ask) -> Value {
        let value = self.value(of, ask.unbound());
        let path = match value.of.target() {
            Type::Passed => return value,
            Type::Named(path) => path,
            Type::Tuple(parts) => {
                let at = name.parse().ok().filter(|at: &usize| *at < parts.len());
                let of = at.map_or(Type::Passed, |at| parts[at].clone());
                return Value {
                    of,
                    storage: value.storage,
                };
            }
            other => {
                return self.unread(line, &format!("{other} has no field `{name}`"));
            }
        };
        let fields = self.program.fields(path, 0).unwrap_or_default();
        match fields.into_iter().find(|(n, _)| n == name) {
            Some((_, of)) => Value {
                of,
                storage: value.storage,
            },
            None => self.unread(line, &format!("{path} has no field `{name}`")),
        }
    }

    pub(super) fn index(&mut self, line: usize, of: &'p Expr, index: &'p Expr, ask: Ask) -> Value {
        let ask = ask.unbound();
        let later = self.leads_to_choice(index);
        let value = self.value(of, ask.or(later));
        let range = matches!(index.kind, Kind::Range(_, _));
        if let Kind::Range(first, last) = &index.kind {
            for end in first.iter().chain(last) {
                self.value(end, ask.or(later));
            }
        } else {
            self.value(index, ask);
        }
        let inner = match value.of.target() {
            Type::Passed => return value,
            Type::Array(inner, _) | Type::Slice(inner) => inner.clone(),
            other => {
                return self.unread(line, &format!("{other} has no entries"));
            }
        };
        let of = if range { Type::Slice(inner) } else { *inner };
        Value {
            of,
            storage: value.storage,
        }
    }

    pub(super) fn repeat(&mut self, line: usize, of: &'p Expr, length: &Expr, ask: Ask) -> Value {
        let inner = self.value(of, ask.bound()).of;
        let told = number(self.program, self.scope(), length);
        let told = told.map(|length| Type::Array(Box::new(inner), length));
        let of = self.told(line, told);
        self.made(line, &of);
        self.fresh(line, of, ask)
    }

    pub(super) fn items(&mut self, line: usize, items: &'p [Expr], ask: Ask) -> Value {
        let mut inner = Type::Passed;
        let given = self.each(items, ask);
        for value in given {
            inner = stated(inner, value.of);
        }
        let of = Type::Array(Box::new(inner), items.len());
        self.made(line, &of);
        self.fresh(line, of, ask)
    }

    /// Values one after another, which go straight into a literal or to a call.
    pub(super) fn each(
        &mut self,
        items: impl IntoIterator<Item = &'p Expr>,
        ask: Ask,
    ) -> Vec<Value> {
        self.each_handed(items, &[], ask)
    }

    /// The same; the closures among them are handed these.
    pub(super) fn each_handed(
        &mut self,
        items: impl IntoIterator<Item = &'p Expr>,
        handed: &[Vec<Value>],
        ask: Ask,
    ) -> Vec<Value> {
        let items: Vec<&Expr> = items.into_iter().collect();
        let mut values = Vec::new();
        for (i, item) in items.iter().enumerate() {
            if matches!(item.kind, Kind::Closure(_, _)) {
                self.handed = handed.get(i).cloned().unwrap_or_default();
            }
            let later = items[i + 1..].iter().any(|e| self.leads_to_choice(e));
            values.push(self.value(item, ask.or(later).bound()));
            self.handed.clear();
        }
        values
    }

    /// A struct, or a variant with named fields.
    pub(super) fn literal(
        &mut self,
        line: usize,
        path: &'p [String],
        fields: &'p [(String, Expr)],
        ask: Ask,
    ) -> Value {
        let mut values = self.each(fields.iter().map(|(_, field)| field), ask);
        let variant = self.program.variant(self.scope(), path);
        let whole = || self.program.whole(self.scope(), path).map(|path| (path, 0));
        let named = variant.or_else(whole);
        let Some((whole, at)) = named.filter(|(path, _)| self.program.types.contains_key(path))
        else {
            let what = format!("the type {} is not known", path.join("::"));
            return self.unread(line, &what);
        };
        let stated = self.program.fields(&whole, at).unwrap_or_default();
        for ((name, _), value) in fields.iter().zip(&mut values) {
            if let Some((_, of)) = stated.iter().find(|(field, _)| field == name) {
                value.of = of.clone();
            }
        }
        let of = Type::Named(whole);
        if of.is_row() {
            self.made(line, &of);
        }
        self.holding(line, of, &values, ask)
    }
}

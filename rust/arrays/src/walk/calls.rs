//! Calls, followed into our own functions.

use std::collections::BTreeSet;

use super::choice::STAGES;
use super::family::LOAD;
use super::known::{OUTSIDE, WRITING, handed_by_std, is_known};
use super::{Ask, Frame, Value, Walker};
use crate::constants::number;
use crate::leads::CHOOSE;
use crate::program::{Item, Scope};
use crate::tree::{Expr, Function, Parameter, TypeTree};
use crate::types::Type;

/// The name of a length, and the length that the call gave.
type Length<'p> = Option<(&'p str, usize)>;

impl<'p> Walker<'p> {
    pub(super) fn call(
        &mut self,
        line: usize,
        path: &'p [String],
        given: &'p [Expr],
        ask: Ask,
    ) -> Value {
        if let Some((whole, _)) = self.program.variant(self.scope(), path) {
            let values = self.each(given, ask);
            return self.holding(line, Type::Named(whole), &values, ask);
        }
        if let [name] = path
            && ["Some", "Ok", "Err"].contains(&name.as_str())
        {
            let values = self.each(given, ask);
            let inner = match (name.as_str(), values.first()) {
                ("Err", Some(value)) => {
                    self.fresh(line, value.of.clone(), ask.unbound());
                    Type::Passed
                }
                (_, None) => Type::Passed,
                (_, Some(value)) => value.of.clone(),
            };
            return self.holding(line, Type::Perhaps(Box::new(inner)), &values, ask);
        }
        if let Some(closure) = self.local(path) {
            return self.called(line, closure, given, ask);
        }
        let whole = self.program.whole(self.scope(), path);
        if let Some(entry) = whole.and_then(|w| self.program.functions.get_key_value(&w)) {
            let later = ask.later || self.leads.function(entry.0);
            let handed = self.handed_by(line, &entry.1.value.parameters, entry.1.scope());
            let given = self.each_handed(given, &handed, ask.or(later));
            return self.follow(line, entry, (given, None), ask);
        }
        let given = self.each(given, ask);
        self.converted(line, path, &given, ask);
        let name = path.join("::");
        if let Some((_, result)) = OUTSIDE.iter().find(|(known, _)| *known == name) {
            return Value::new(Type::plain(result));
        }
        self.unread(line, &format!("the call of {name} is not known"))
    }

    /// What is handed to a closure counts here: what the closure does counted where it was written. So in the choice
    /// nothing else may be alive here.
    fn called(&mut self, line: usize, closure: Value, given: &'p [Expr], ask: Ask) -> Value {
        if self.choice.is_some_and(|from| from < self.alive.len()) {
            self.find(line, "a closure is called in the choice beside a row");
        }
        for value in self.each(given, ask) {
            self.fresh(line, value.of, ask.unbound());
        }
        let of = closure.of.clone();
        self.holding(line, of, &[closure], ask)
    }

    /// A function that is handed on counts where it is named, as if it were called there.
    pub(super) fn handed_on(
        &mut self,
        line: usize,
        entry: (&'p String, &'p Item<Function>),
        ask: Ask,
    ) -> Value {
        let given = vec![Value::passed(); entry.1.value.parameters.len()];
        self.follow(line, entry, (given, None), ask)
    }

    /// A call that names a length.
    pub(super) fn sized(
        &mut self,
        line: usize,
        (path, length): (&'p [String], &'p Expr),
        given: &'p [Expr],
        ask: Ask,
    ) -> Value {
        let whole = self.program.whole(self.scope(), path);
        let entry = whole.and_then(|w| self.program.functions.get_key_value(&w));
        let known = number(self.program, self.scope(), length);
        if let (Some(entry), Ok(length)) = (entry, known)
            && let Some(name) = &entry.1.value.length
        {
            let later = ask.later || self.leads.function(entry.0);
            let given = self.each(given, ask.or(later));
            return self.follow(line, entry, (given, Some((name.as_str(), length))), ask);
        }
        self.unread(
            line,
            &format!("the call of {} is not known", path.join("::")),
        )
    }

    pub(super) fn method(
        &mut self,
        line: usize,
        (of, name): (&'p Expr, &str),
        given: &'p [Expr],
        ask: Ask,
    ) -> Value {
        // The type says which function it is; until then each of that name is taken to lead to the choice.
        let leads = given.iter().any(|e| self.leads_to_choice(e)) || self.leads.method(name);
        let receiver = self.value(of, ask.or(leads).unbound());
        let path = match receiver.of.target() {
            Type::Passed => return self.of_any(line, name, (receiver, given), ask),
            Type::Named(path) => format!("{path}::{name}"),
            other => format!("{other}::{name}"),
        };
        if let Some(entry) = self.program.functions.get_key_value(&path) {
            let later = ask.later || self.leads.function(&path);
            let others = entry.1.value.parameters.get(1..).unwrap_or_default();
            let handed = self.handed_by(line, others, entry.1.scope());
            let mut all = vec![receiver];
            all.extend(self.each_handed(given, &handed, ask.or(later)));
            return self.follow(line, entry, (all, None), ask);
        }
        if is_known(name) {
            if WRITING.contains(&name) {
                self.write(line, of, &receiver);
            }
            let handed = vec![handed_by_std(name, &receiver); given.len()];
            let given = self.each_handed(given, &handed, ask);
            return self.of_std(line, name, receiver, given, ask);
        }
        self.unread(line, &format!("the call of {path} is not known"))
    }

    /// What a function hands to each closure that it is given.
    fn handed_by(
        &mut self,
        line: usize,
        parameters: &'p [Parameter],
        scope: Scope<'p>,
    ) -> Vec<Vec<Value>> {
        let mut all = Vec::new();
        for parameter in parameters {
            let mut handed = Vec::new();
            if let TypeTree::Bound(types) = &parameter.annotation {
                for tree in types {
                    let told = self.program.type_of(scope, tree);
                    handed.push(Value::new(self.told(line, told)));
                }
            }
            all.push(handed);
        }
        all
    }

    /// Our own functions of a plain type, as `u32::from`: each that it may be.
    fn converted(&mut self, line: usize, path: &'p [String], given: &[Value], ask: Ask) {
        let program = self.program;
        let [of, name] = path else { return };
        for entry in &program.functions {
            let function = &entry.1.value;
            if function.of.as_ref() == Some(of) && function.name == *name {
                self.follow(line, entry, (given.to_vec(), None), ask);
            }
        }
    }

    /// A method of a value whose type is not known: each of our own of that name may be it.
    fn of_any(
        &mut self,
        line: usize,
        name: &str,
        (receiver, given): (Value, &'p [Expr]),
        ask: Ask,
    ) -> Value {
        let program = self.program;
        let later = ask.or(self.leads.method(name));
        let mut all = vec![receiver];
        all.extend(self.each(given, later));
        for entry in &program.functions {
            let function = &entry.1.value;
            let takes_self = function
                .parameters
                .first()
                .is_some_and(|p| p.name == "self");
            if takes_self && function.name == name && function.parameters.len() == all.len() {
                self.follow(line, entry, (all.clone(), None), ask);
            }
        }
        Value::passed()
    }

    pub(super) fn enter(
        &mut self,
        path: &'p str,
        item: &'p Item<Function>,
        length: Length<'p>,
        later: bool,
    ) {
        let scope = Scope {
            length,
            ..item.scope()
        };
        let locals = Vec::new();
        self.frames.push(Frame {
            path,
            scope,
            locals,
            later,
        });
    }

    fn follow(
        &mut self,
        line: usize,
        (path, item): (&'p String, &'p Item<Function>),
        (given, length): (Vec<Value>, Length<'p>),
        ask: Ask,
    ) -> Value {
        if !ask.later && !self.leads.function(path) {
            return Value::passed();
        }
        let mut storage = BTreeSet::new();
        for value in given.iter().filter(|v| self.program.lends(&v.of)) {
            storage.extend(value.storage.iter().copied());
        }
        if self.frames.iter().any(|frame| frame.path == path) {
            self.find(line, &format!("{path} calls itself"));
        } else if item.value.parameters.len() == given.len() {
            self.inside(line, (path, item), (given, length), ask);
        } else {
            self.find(line, &format!("the call of {path} has other parameters"));
        }
        let of = match &item.value.result {
            Some(tree) => {
                let told = self.program.type_of(item.scope(), tree);
                self.told(line, told)
            }
            None => Type::Unit,
        };
        if of.is_reference() {
            return Value { of, storage };
        }
        let lends = self.program.lends(&of);
        let mut value = self.fresh(line, of, ask);
        if lends {
            value.storage.extend(storage);
        }
        value
    }

    /// The body of a function, unless it is known that nothing happens there.
    fn inside(
        &mut self,
        line: usize,
        (path, item): (&'p str, &'p Item<Function>),
        (given, length): (Vec<Value>, Length<'p>),
        ask: Ask,
    ) {
        self.way.functions.insert(path.into());
        if STAGES.contains(&path) {
            self.stages.push(path);
        }
        let parameters = &item.value.parameters;
        let bound = |p: &Parameter| matches!(p.annotation, TypeTree::Bound(_));
        let open = length.is_some() || parameters.iter().any(bound);
        let plain = path != LOAD && !open && !self.leads.function(path);
        let may_be_quiet = self.choice.is_none() && plain;
        if may_be_quiet && let Some(functions) = self.quiet.get(path) {
            self.way.functions.extend(functions.iter().cloned());
            return;
        }
        let before = std::mem::take(&mut self.way.functions);
        let noise = self.noise;
        if path == CHOOSE && self.choice.is_none() {
            self.choose(line, path, item, given);
        } else {
            self.body(path, item, (given, length), ask.later);
        }
        let within = std::mem::replace(&mut self.way.functions, before);
        self.way.functions.extend(within.iter().cloned());
        if may_be_quiet && noise == self.noise {
            self.quiet.insert(path.into(), within);
        }
    }

    pub(super) fn body(
        &mut self,
        path: &'p str,
        item: &'p Item<Function>,
        (given, length): (Vec<Value>, Length<'p>),
        later: bool,
    ) {
        let alive = self.alive.len();
        if self.choice.is_some() {
            self.way.seen.functions.insert(path.into());
        }
        self.enter(path, item, length, later);
        self.parameters(item, given);
        let loading = path == LOAD;
        let mut family = BTreeSet::new();
        if loading {
            family = self.lent_to_load(item);
        }
        let bound = false;
        self.block(&item.value.body, Ask { later, bound });
        self.frames.pop();
        self.alive.truncate(alive);
        self.way.loaded.extend(family);
    }

    fn parameters(&mut self, item: &'p Item<Function>, given: Vec<Value>) {
        let scope = self.scope();
        for (parameter, mut value) in item.value.parameters.iter().zip(given) {
            if !matches!(parameter.annotation, TypeTree::Bound(_)) {
                let told = self.program.type_of(scope, &parameter.annotation);
                value.of = self.told(parameter.line, told);
            }
            if self.choice.is_some() && self.lends_array(&value.of) {
                let what = format!(
                    "`{}` lends an array to be written in the choice",
                    parameter.name
                );
                self.find(parameter.line, &what);
            }
            if self.goes_on(&value) {
                self.frame().locals.push((&parameter.name, value));
            } else {
                self.declare(parameter.line, &parameter.name, value, true);
            }
        }
    }
}

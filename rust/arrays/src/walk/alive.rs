//! Arrays that begin to live, and writes.

use std::collections::BTreeSet;

use super::{Ask, Live, Storage, Value, Walker};
use crate::tree::{Expr, Kind};
use crate::types::{MOST_IN_THE_CHOICE, Type};

impl<'p> Walker<'p> {
    /// A value of a type begins to live under a name.
    pub(super) fn begin(&mut self, name: &str, of: &Type, line: usize) -> Storage {
        let (held, bytes) = match (self.program.held(of), self.program.layout(of)) {
            (Ok(held), Ok((bytes, _))) => (held, bytes),
            (Err(what), _) | (_, Err(what)) => {
                self.find(line, &what);
                return Storage::Plain;
            }
        };
        if held.arrays == 0 {
            return Storage::Plain;
        }
        let id = self.way.lives.len();
        let lists = !held.lists.is_empty();
        let live = Live {
            function: self.frame().path.into(),
            name: name.into(),
            of: of.clone(),
            held,
            bytes,
            place: self.place(line),
        };
        self.way.lives.push(live);
        self.alive.push(id);
        self.test_choice(name, of, line);
        if lists {
            self.noise += 1;
            let lives = &self.way.lives;
            let alive = self.alive.iter().copied();
            let peak = alive.filter(|id| !lives[*id].held.lists.is_empty());
            self.way.peaks.push(peak.collect());
        }
        Storage::Array(id)
    }

    /// In the choice no array but one face's row may be alive.
    fn test_choice(&mut self, name: &str, of: &Type, line: usize) {
        let Some(from) = self.choice else { return };
        let mut entries = 0;
        for id in &self.alive[from..] {
            let held = &self.way.lives[*id].held;
            entries += held.small + held.lists.iter().sum::<usize>();
        }
        self.way.seen.entries = self.way.seen.entries.max(entries);
        if MOST_IN_THE_CHOICE < entries {
            let what =
                format!("`{name}`: {of} is an array in the choice, {entries} entries together");
            self.find(line, &what);
        }
        if !of.is_row() {
            self.find(line, &format!("`{name}`: {of} in the choice is no row"));
        }
    }

    /// In the choice no array is made, of whatever length, and no row: a face's row is read where it lies.
    pub(super) fn made(&mut self, line: usize, of: &Type) {
        if self.choice.is_some() {
            let place = self.place(line);
            self.way.seen.arrays.insert(place);
            self.find(line, &format!("an array {of} is made in the choice"));
        }
    }

    /// A value that no name holds: alive to the end of its statement, unless it goes where it is counted anyway.
    pub(super) fn fresh(&mut self, line: usize, of: Type, ask: Ask) -> Value {
        let mut value = Value::new(of);
        if !ask.bound && ask.later && !value.of.is_reference() {
            let storage = self.begin("a value without a name", &value.of, line);
            value.storage = [storage].into();
        }
        value
    }

    /// A new value that holds others: it lies too where those of them do by which is written.
    pub(super) fn holding(&mut self, line: usize, of: Type, held: &[Value], ask: Ask) -> Value {
        let mut value = self.fresh(line, of, ask);
        let program = self.program;
        let lent = held.iter().filter(|v| program.lends_to_write(&v.of));
        value.storage.extend(lent.flat_map(|v| v.storage.iter()));
        value
    }

    /// A local from here on. Of a value that is not on the way nothing is counted.
    pub(super) fn declare(&mut self, line: usize, name: &'p str, mut value: Value, later: bool) {
        if !value.of.is_reference() {
            let mut storage = Storage::Plain;
            if later {
                storage = self.begin(name, &value.of, line);
            }
            if !self.program.lends(&value.of) {
                value.storage.clear();
            }
            value.storage.insert(storage);
        }
        self.frame().locals.push((name, value));
    }

    /// What a place is given may hold no array that its type does not tell, as that of `None`.
    pub(super) fn assign(
        &mut self,
        line: usize,
        place: &'p Expr,
        given: &'p Expr,
        ask: Ask,
    ) -> Value {
        let later = self.leads_to_choice(place);
        let given = self.value(given, ask.or(later).unbound());
        let target = self.value(place, ask.or(true).unbound());
        if self.has_array(&given.of) && !self.has_array(&target.of) {
            let (root, _) = root_of(place);
            let what = format!("`{root}`: {} is given {}", target.of, given.of);
            self.find(line, &what);
        }
        self.write(line, place, &target);
        Value::new(Type::Unit)
    }

    pub(super) fn write(&mut self, line: usize, place: &Expr, target: &Value) {
        let (root, inside) = root_of(place);
        let plain = BTreeSet::from([Storage::Plain]);
        if inside || target.storage != plain {
            self.noise += 1;
            if self.choice.is_some() {
                let place = self.place(line);
                self.way.seen.writes.insert(place);
                self.find(line, &format!("`{root}` is written in the choice"));
            }
        }
        if target.storage.is_empty() {
            self.find(line, &format!("what `{root}` writes cannot be told"));
        }
        for storage in &target.storage {
            if let Storage::Array(id) = storage
                && self.way.loaded.contains(id)
            {
                let family = self.way.lives[*id].name.clone();
                let what = format!("`{root}` writes the family `{family}`");
                self.find(line, &what);
            }
        }
    }
}

/// The name that a place begins with, and whether the place is an entry or lies behind a reference.
fn root_of(place: &Expr) -> (String, bool) {
    match &place.kind {
        Kind::Path(path) => (path.join("::"), false),
        Kind::Field(of, _) => root_of(of),
        Kind::Index(of, _) | Kind::Deref(of) => (root_of(of).0, true),
        _ => ("a value without a name".into(), true),
    }
}

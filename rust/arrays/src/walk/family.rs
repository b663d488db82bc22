//! The family: what the way begins with, or what is lent to be loaded.

use std::collections::BTreeSet;

use super::{Ask, Storage, Value, Walker};
use crate::program::Item;
use crate::tree::Function;
use crate::types::Type;

/// The function that loads a job's faces into what is lent to it.
pub const LOAD: &str = "query::loading::load";

impl<'p> Walker<'p> {
    /// The function that the way begins with. By value the lists that it is handed are the family; on a job they are
    /// beside it, unless they are lent to be loaded.
    pub fn start(&mut self, path: &'p str, item: &'p Item<Function>, job: bool) {
        self.way.functions.insert(path.into());
        self.enter(path, item, None, false);
        let scope = self.scope();
        for parameter in &item.value.parameters {
            let told = self.program.type_of(scope, &parameter.annotation);
            let of = self.told(parameter.line, told);
            let mut value = Value::new(of);
            if self.program.lends(&value.of) {
                value.storage = [Storage::Outside].into();
            }
            self.declare(parameter.line, &parameter.name, value, true);
        }
        if !job {
            self.handed_over();
        }
        let ask = Ask {
            later: false,
            bound: false,
        };
        self.block(&item.value.body, ask);
        self.frames.pop();
    }

    /// The lists that are alive are the family.
    fn handed_over(&mut self) {
        let lists: Vec<usize> = self.way.peaks.drain(..).flatten().collect();
        self.alive.retain(|id| !lists.contains(id));
        self.way.family.extend(&lists);
        self.way.loaded.extend(lists);
    }

    /// The arrays that are lent to be loaded: those behind the one `&mut` parameter of rows.
    pub(super) fn lent_to_load(&mut self, item: &'p Item<Function>) -> BTreeSet<usize> {
        let line = item.value.line;
        let locals = self.frame().locals.clone();
        let rows: Vec<_> = locals.iter().filter(|(_, v)| lends_rows(&v.of)).collect();
        let mut family = BTreeSet::new();
        if rows.len() != 1 {
            self.find(line, "which parameter takes the rows cannot be told");
        }
        if 0 < self.loops {
            self.find(line, "a job is loaded in a loop");
        }
        for (name, value) in rows {
            for storage in &value.storage {
                match storage {
                    Storage::Array(id) => {
                        family.insert(*id);
                    }
                    _ => self.find(line, &format!("what is lent as `{name}` cannot be told")),
                }
            }
            if value.storage.is_empty() {
                self.find(line, &format!("what is lent as `{name}` cannot be told"));
            }
        }
        self.way.family.extend(&family);
        family
    }
}

/// Whether it is a reference by which rows can be written.
fn lends_rows(of: &Type) -> bool {
    match of {
        Type::Reference {
            mutable: true,
            inner,
        } => match &**inner {
            Type::Array(row, _) | Type::Slice(row) => row.is_row(),
            _ => false,
        },
        _ => false,
    }
}

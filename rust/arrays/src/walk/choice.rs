//! The choice, and what holds in it.

use super::{Live, Storage, Value, Walker};
use crate::program::Item;
use crate::tree::Function;
use crate::types::Type;

/// The function that chooses for default attributes.
pub const DEFAULT: &str = "matching::rows::FamilyRows::default_place";

/// The stages of the choice, in their order: what ranks a face in each, and the look for a slant axis.
pub const STAGES: [&str; 4] = [
    "matching::stages::width_rank",
    "matching::rows::FamilyRows::slant_at",
    "matching::stages::style_rank",
    "matching::stages::weight_rank",
];

impl<'p> Walker<'p> {
    /// Whether it is a reference by which an array can be written.
    pub(super) fn lends_array(&self, of: &Type) -> bool {
        let Type::Reference {
            mutable: true,
            inner,
        } = of
        else {
            return false;
        };
        self.has_array(inner) || matches!(**inner, Type::Slice(_))
    }

    /// Whether a value of the type holds an array.
    pub(super) fn has_array(&self, of: &Type) -> bool {
        let held = self.program.held(of);
        held.map_or(true, |held| 0 < held.arrays)
    }

    /// Where the choice begins no short array may be alive.
    fn short_arrays(&mut self, line: usize) {
        let lives = self.alive.iter().map(|id| &self.way.lives[*id]);
        let short: Vec<&Live> = lives.filter(|live| 0 < live.held.small).collect();
        let entries: usize = short.iter().map(|live| live.held.small).sum();
        if 0 < entries {
            let names: Vec<String> = short.iter().map(|l| format!("`{}`", l.name)).collect();
            let names = names.join(", ");
            let what = format!("short arrays with {entries} entries at the choice: {names}");
            self.find(line, &what);
        }
    }

    /// The rows among what began to live behind so many: a closure of the choice was handed them.
    pub(super) fn may_go_on(&mut self, alive: usize) {
        if self.choice.is_some() {
            let lives = &self.way.lives;
            let handed = self.alive[alive..].iter().copied();
            self.rows.extend(handed.filter(|id| lives[*id].of.is_row()));
        }
    }

    /// The row that a closure was handed goes on to one call by value, and counts as the same one there.
    pub(super) fn goes_on(&mut self, value: &Value) -> bool {
        let storage: Vec<&Storage> = value.storage.iter().collect();
        match storage[..] {
            [Storage::Array(id)] if value.of.is_row() => self.rows.remove(id),
            _ => false,
        }
    }

    pub(super) fn choose(
        &mut self,
        line: usize,
        path: &'p str,
        item: &'p Item<Function>,
        given: Vec<Value>,
    ) {
        self.short_arrays(line);
        if self.frames.iter().any(|frame| frame.path == DEFAULT) {
            self.way.defaults += 1;
        } else {
            self.way.choices += 1;
        }
        self.choice = Some(self.alive.len());
        self.stages.clear();
        self.body(path, item, (given, None), true);
        self.choice = None;
        if self.stages != STAGES {
            let seen = self.stages.join(", ");
            self.find(line, &format!("the choice goes through: {seen}"));
        }
    }
}

//! The files together: what each name stands for.

use std::collections::{BTreeMap, BTreeSet};

use crate::findings::Findings;
use crate::parser::parse;
use crate::sources::{CRATES, Source};
use crate::tree::{Constant, Definition, File, Function};

pub struct Module {
    pub file: String,
    pub crate_name: String,
    /// As `matching::stages`, or `stemhook` for a crate's own file.
    pub path: String,
    /// Last name to whole path.
    uses: BTreeMap<String, String>,
}

pub struct Item<T> {
    pub module: usize,
    pub value: T,
}

impl Item<Function> {
    pub fn scope(&self) -> Scope<'_> {
        Scope {
            module: self.module,
            of: self.value.of.as_deref(),
            length: None,
            locals: Some(&self.value.locals),
        }
    }
}

#[derive(Default)]
pub struct Program {
    pub modules: Vec<Module>,
    public: BTreeSet<String>,
    pub functions: BTreeMap<String, Item<Function>>,
    pub constants: BTreeMap<String, Item<Constant>>,
    pub types: BTreeMap<String, Item<Definition>>,
}

/// Where a path is read: its module, and the type that `Self` stands for.
#[derive(Clone, Copy)]
pub struct Scope<'a> {
    pub module: usize,
    pub of: Option<&'a str>,
    /// The name of a length that the call gave, and that length.
    pub length: Option<(&'a str, usize)>,
    /// The names of a function's own, wherever they stand in it.
    pub locals: Option<&'a BTreeSet<String>>,
}

impl Scope<'_> {
    /// A module's own.
    pub fn of_module(module: usize) -> Self {
        Self {
            module,
            of: None,
            length: None,
            locals: None,
        }
    }

    /// Whether a path is the name of a local.
    pub fn is_local(&self, path: &[String]) -> bool {
        path.len() == 1 && self.locals.is_some_and(|all| all.contains(&path[0]))
    }
}

/// The whole path of the type that an `impl` block names: a used one, or the module's own.
fn type_path(uses: &BTreeMap<String, String>, module: &str, of: &str) -> String {
    let own = || format!("{module}::{of}");
    uses.get(of).cloned().unwrap_or_else(own)
}

fn module_path(source: &Source) -> String {
    if source.module == "lib" {
        return source.crate_name.clone();
    }
    format!("{}::{}", source.crate_name, source.module)
}

fn uses_of(source: &Source, file: &File, findings: &mut Findings) -> BTreeMap<String, String> {
    let mut uses = BTreeMap::new();
    for used in &file.uses {
        let mut used = used.clone();
        if used[0] == "crate" {
            used[0].clone_from(&source.crate_name);
        }
        let name = used.last().cloned().unwrap_or_default();
        if uses.insert(name.clone(), used.join("::")).is_some() {
            findings.add(format!("{}: two uses of the name {name}", source.file));
        }
    }
    uses
}

impl Program {
    /// What cannot be read is among the findings.
    pub fn read(sources: &[Source], findings: &mut Findings) -> Self {
        let mut program = Self::default();
        for source in sources {
            match parse(&source.text) {
                Ok(file) => program.add(source, file, findings),
                Err(failure) => findings.add(format!(
                    "cannot read {}:{}: {}",
                    source.file, failure.line, failure.what
                )),
            }
        }
        program
    }

    fn add(&mut self, source: &Source, file: File, findings: &mut Findings) {
        let module = self.modules.len();
        let path = module_path(source);
        let uses = uses_of(source, &file, findings);
        let place = |of: Option<&str>, name: &str| {
            let of = of.map(|of| type_path(&uses, &path, of));
            format!("{}::{name}", of.as_deref().unwrap_or(&path))
        };
        for (name, _) in file.modules.iter().filter(|(_, public)| *public) {
            self.public.insert(format!("{path}::{name}"));
        }
        let mut twice = Vec::new();
        for value in file.functions {
            let name = place(value.of.as_deref(), &value.name);
            let item = Item { module, value };
            twice.extend(self.functions.insert(name.clone(), item).map(|_| name));
        }
        for value in file.constants {
            let name = place(value.of.as_deref(), &value.name);
            let item = Item { module, value };
            twice.extend(self.constants.insert(name.clone(), item).map(|_| name));
        }
        for (name, value) in file.types {
            let name = place(None, &name);
            let item = Item { module, value };
            twice.extend(self.types.insert(name.clone(), item).map(|_| name));
        }
        for name in twice {
            findings.add(format!("{}: {name} stands twice", source.file));
        }
        self.modules.push(Module {
            file: source.file.clone(),
            crate_name: source.crate_name.clone(),
            path,
            uses,
        });
    }

    pub fn file(&self, module: usize) -> &str {
        &self.modules[module].file
    }

    /// Whether other crates see the function.
    pub fn is_public(&self, name: &str) -> bool {
        let Some(item) = self.functions.get(name) else {
            return false;
        };
        let module = &self.modules[item.module];
        item.value.public
            && (module.path == module.crate_name || self.public.contains(&module.path))
    }

    fn knows(&self, path: &str) -> bool {
        self.functions.contains_key(path)
            || self.constants.contains_key(path)
            || self.types.contains_key(path)
            || self.modules.iter().any(|m| m.path == path)
    }

    /// The whole path of what a path in a scope names, if its first name is known there.
    pub fn whole(&self, scope: Scope, path: &[String]) -> Option<String> {
        let module = &self.modules[scope.module];
        let (first, rest) = path.split_first()?;
        let own = format!("{}::{first}", module.path);
        let start = if first == "Self" {
            type_path(&module.uses, &module.path, scope.of?)
        } else if first == "crate" {
            module.crate_name.clone()
        } else if let Some(used) = module.uses.get(first) {
            used.clone()
        } else if self.knows(&own) {
            own
        } else if CRATES.contains(&first.as_str()) {
            first.clone()
        } else {
            return None;
        };
        let mut whole = start;
        for name in rest {
            whole = format!("{whole}::{name}");
        }
        Some(whole)
    }

    /// The enum and the number of the variant that a path names.
    pub fn variant(&self, scope: Scope, path: &[String]) -> Option<(String, usize)> {
        let (last, front) = path.split_last()?;
        let whole = self.whole(scope, front)?;
        let Definition::Enum(variants) = &self.types.get(&whole)?.value else {
            return None;
        };
        let at = variants.iter().position(|v| &v.name == last)?;
        Some((whole, at))
    }
}

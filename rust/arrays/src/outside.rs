//! The choice is made in one place: no function outside it goes through a stage or ranks.

use std::collections::BTreeSet;

use crate::findings::Findings;
use crate::leads::{CHOOSE, every};
use crate::program::{Program, Scope};
use crate::tree::{Expr, Kind};
use crate::walk::STAGES;

/// Where ranks are made and compared, and where a face stands.
const RANK: &str = "matching::rank::";
const ORDER: &str = "matching::order::";

fn is_rank(path: &str) -> bool {
    path.starts_with(RANK)
}

fn is_standing(path: &str) -> bool {
    path.starts_with(ORDER) && path.ends_with("_standing")
}

/// What an expression itself names. A method is taken for every one of its name.
fn named(program: &Program, scope: Scope, value: &Expr) -> Vec<String> {
    match &value.kind {
        Kind::Path(path) if scope.is_local(path) => Vec::new(),
        Kind::Call(path, _)
        | Kind::Sized(path, _, _)
        | Kind::Path(path)
        | Kind::Struct(path, _) => program.whole(scope, path).into_iter().collect(),
        Kind::Method(_, name, _) => {
            let all = program.functions.iter();
            let methods = all.filter(|(_, f)| f.value.of.is_some() && f.value.name == *name);
            methods.map(|(path, _)| path.clone()).collect()
        }
        _ => Vec::new(),
    }
}

/// What a function names, each with its line.
fn names(program: &Program, path: &str) -> Vec<(String, usize)> {
    let mut all = Vec::new();
    if let Some(item) = program.functions.get(path) {
        let scope = item.scope();
        every(&item.value.body, &mut |e| {
            let lines = named(program, scope, e).into_iter();
            all.extend(lines.map(|name| (name, e.line)));
        });
    }
    all
}

/// What only the choice may use.
struct Own {
    /// The functions of the choice that rank by what they call.
    ranking: BTreeSet<String>,
}

impl Own {
    fn new(program: &Program, inside: &BTreeSet<&String>) -> Self {
        let ranking = BTreeSet::new();
        let mut own = Self { ranking };
        loop {
            let before = own.ranking.len();
            for path in inside.iter().filter(|path| **path != CHOOSE) {
                let names = names(program, path);
                if names.iter().any(|(name, _)| own.has(name)) {
                    own.ranking.insert((*path).clone());
                }
            }
            if own.ranking.len() == before {
                return own;
            }
        }
    }

    fn has(&self, path: &str) -> bool {
        let stage = STAGES.contains(&path);
        stage || is_rank(path) || is_standing(path) || self.ranking.contains(path)
    }
}

/// Looks at every function of the program, on a way or on none. Inside are `choose` and what it calls.
pub fn check(program: &Program, inside: &BTreeSet<&String>, findings: &mut Findings) {
    if !inside.iter().any(|path| is_rank(path)) {
        findings.add(format!("the choice does not rank by {RANK}"));
    }
    if !inside.iter().any(|path| is_standing(path)) {
        let what = format!("the choice does not rank by the standings of {ORDER}");
        findings.add(what);
    }
    let own = Own::new(program, inside);
    for (path, item) in &program.functions {
        if own.has(path) && program.is_public(path) {
            findings.add(format!("{path}: other crates can choose by it"));
        }
        if inside.contains(path) {
            continue;
        }
        for (name, line) in names(program, path) {
            if own.has(&name) {
                let file = program.file(item.module);
                findings.add(format!(
                    "{path}: {name} is used outside the choice ({file}:{line})"
                ));
            }
        }
    }
}

//! Which functions lead to the choice.

use std::collections::BTreeSet;

use crate::program::{Program, Scope};
use crate::tree::{Block, Expr, Kind, Statement};

/// The function that chooses a place of a family.
pub const CHOOSE: &str = "matching::rows::FamilyRows::choose";

/// The expressions right under an expression, in the order in which they are reached.
pub fn parts(value: &Expr) -> Vec<&Expr> {
    match &value.kind {
        Kind::Number(_, _) | Kind::Bool | Kind::Path(_) | Kind::Leave => Vec::new(),
        Kind::Try(of) | Kind::Closure(_, of) | Kind::Let(_, of) => vec![of],
        Kind::Matches(of, test, _) => [&**of].into_iter().chain(test.as_deref()).collect(),
        Kind::Unary(of) | Kind::Deref(of) | Kind::Cast(of, _) | Kind::Field(of, _) => vec![of],
        Kind::Borrow { of, .. } => vec![of],
        Kind::Binary(_, left, right) | Kind::Index(left, right) | Kind::Repeat(left, right) => {
            vec![left, right]
        }
        Kind::Assign(place, given) => vec![given, place],
        Kind::Call(_, given) | Kind::Items(given) | Kind::Tuple(given) => given.iter().collect(),
        Kind::Sized(_, length, given) => [&**length].into_iter().chain(given).collect(),
        Kind::Method(of, _, given) => [&**of].into_iter().chain(given).collect(),
        Kind::Range(first, last) => first.iter().chain(last).map(|e| &**e).collect(),
        Kind::Struct(_, fields) => fields.iter().map(|(_, field)| field).collect(),
        Kind::If { test, then, other } => {
            let mut all = vec![&**test];
            all.extend(block_parts(then));
            all.extend(other.as_deref());
            all
        }
        Kind::Match(of, arms) => {
            let values = arms
                .iter()
                .flat_map(|arm| arm.test.iter().chain([&arm.value]));
            [&**of].into_iter().chain(values).collect()
        }
        Kind::Block(block) => block_parts(block),
        Kind::While(test, body) | Kind::For(_, test, body) => {
            [&**test].into_iter().chain(block_parts(body)).collect()
        }
        Kind::Return(given) => given.iter().map(|e| &**e).collect(),
    }
}

pub fn block_parts(block: &Block) -> Vec<&Expr> {
    let statements = block
        .statements
        .iter()
        .flat_map(|statement| match statement {
            Statement::Let(binding) => {
                let other = binding.other.iter().flat_map(block_parts);
                binding.value.iter().chain(other).collect()
            }
            Statement::Expr(value) => vec![value],
        });
    statements.chain(block.tail.as_deref()).collect()
}

/// Every expression of a block, those that hold others before them.
pub fn every<'a>(block: &'a Block, see: &mut impl FnMut(&'a Expr)) {
    let mut open: Vec<&Expr> = block_parts(block);
    open.reverse();
    while let Some(value) = open.pop() {
        see(value);
        open.extend(parts(value).into_iter().rev());
    }
}

/// The functions that lead to the choice, by their paths, and those of them that are methods, by their names.
#[derive(Default)]
pub struct Leads {
    functions: BTreeSet<String>,
    methods: BTreeSet<String>,
}

impl Leads {
    pub fn new(program: &Program) -> Self {
        let mut leads = Self::default();
        leads.functions.insert(CHOOSE.into());
        leads
            .methods
            .extend(CHOOSE.rsplit("::").next().map(str::to_string));
        loop {
            let before = leads.functions.len();
            for (path, item) in &program.functions {
                let scope = item.scope();
                let mut found = false;
                every(&item.value.body, &mut |e| {
                    found = found || leads.calls(program, scope, e);
                });
                if found && leads.functions.insert(path.clone()) && item.value.of.is_some() {
                    leads.methods.insert(item.value.name.clone());
                }
            }
            if leads.functions.len() == before {
                return leads;
            }
        }
    }

    pub fn function(&self, path: &str) -> bool {
        self.functions.contains(path)
    }

    /// Whether a method of the name leads there.
    pub fn method(&self, name: &str) -> bool {
        self.methods.contains(name)
    }

    pub fn all(&self) -> impl Iterator<Item = &String> {
        self.functions.iter()
    }

    /// Whether the expression itself is a call that leads there. A method is taken for every one of its name.
    fn calls(&self, program: &Program, scope: Scope, value: &Expr) -> bool {
        match &value.kind {
            Kind::Path(path) if scope.is_local(path) => false,
            Kind::Call(path, _) | Kind::Sized(path, _, _) | Kind::Path(path) => {
                let whole = program.whole(scope, path);
                whole.is_some_and(|whole| self.functions.contains(&whole))
            }
            Kind::Method(_, name, _) => self.methods.contains(name),
            _ => false,
        }
    }

    /// Whether the expression, or one under it, leads there.
    pub fn within(&self, program: &Program, scope: Scope, value: &Expr) -> bool {
        let under = || {
            parts(value)
                .into_iter()
                .any(|p| self.within(program, scope, p))
        };
        self.calls(program, scope, value) || under()
    }
}

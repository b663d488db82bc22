//! The way from a call to the choice: which arrays are alive at each point of it.
//!
//! Each call is followed as if its body stood there. What comes after the last
//! call that leads to the choice is not on the way.

mod alive;
mod blocks;
mod calls;
mod choice;
mod family;
mod forms;
mod known;

pub use choice::{DEFAULT, STAGES};
pub use known::{OUTSIDE, is_known};

use std::collections::{BTreeMap, BTreeSet};

use crate::findings::Findings;
use crate::leads::Leads;
use crate::program::{Program, Scope};
use crate::tree::{Expr, Kind};
use crate::types::{Held, Told, Type};

/// An array, or a value that holds some, from where it is declared to the end of its block.
#[derive(Clone, Debug)]
pub struct Live {
    pub function: String,
    pub name: String,
    pub of: Type,
    pub held: Held,
    pub bytes: usize,
    /// File and line.
    pub place: String,
}

/// What was seen on the way from one call.
#[derive(Default)]
pub struct Way {
    pub functions: BTreeSet<String>,
    pub lives: Vec<Live>,
    /// Those with lists that are alive where one more was declared.
    pub peaks: Vec<Vec<usize>>,
    /// What the caller handed over, or what was lent to be loaded.
    pub family: BTreeSet<usize>,
    /// Those of the family that were handed over or are loaded, and not to be written any more.
    loaded: BTreeSet<usize>,
    /// How often the choice is reached for a request, and how often for the default.
    pub choices: usize,
    pub defaults: usize,
    pub seen: Seen,
}

/// What was seen in the choice: its functions by name, the others by file and line.
#[derive(Default)]
pub struct Seen {
    pub functions: BTreeSet<String>,
    pub loops: BTreeSet<String>,
    /// Arrays that are made.
    pub arrays: BTreeSet<String>,
    /// Entries that are written.
    pub writes: BTreeSet<String>,
    /// The most entries that were alive together.
    pub entries: usize,
}

/// Where a value lies.
#[derive(Clone, Copy, Debug, PartialEq, Eq, PartialOrd, Ord)]
enum Storage {
    /// Lent by the caller of the first function.
    Outside,
    /// In a value without arrays.
    Plain,
    Array(usize),
}

#[derive(Clone, Debug)]
struct Value {
    of: Type,
    storage: BTreeSet<Storage>,
}

impl Value {
    fn new(of: Type) -> Self {
        let storage = BTreeSet::from([Storage::Plain]);
        Self { of, storage }
    }

    fn passed() -> Self {
        Self::new(Type::Passed)
    }
}

/// What is asked of an expression: whether the choice comes after it, and
/// whether its value goes straight to where it is counted anyway.
#[derive(Clone, Copy)]
struct Ask {
    later: bool,
    bound: bool,
}

impl Ask {
    fn unbound(self) -> Self {
        Self {
            bound: false,
            ..self
        }
    }

    fn bound(self) -> Self {
        Self {
            bound: true,
            ..self
        }
    }

    fn or(self, later: bool) -> Self {
        Self {
            later: self.later || later,
            ..self
        }
    }
}

struct Frame<'p> {
    path: &'p str,
    scope: Scope<'p>,
    locals: Vec<(&'p str, Value)>,
    /// Whether the choice comes after this function's end.
    later: bool,
}

/// Functions on whose way nothing happens, each with those that it calls.
pub type Quiet = BTreeMap<String, BTreeSet<String>>;

pub struct Walker<'p> {
    program: &'p Program,
    leads: &'p Leads,
    findings: &'p mut Findings,
    quiet: &'p mut Quiet,
    pub way: Way,
    frames: Vec<Frame<'p>>,
    alive: Vec<usize>,
    /// Counts lists, writes through references, and findings.
    noise: usize,
    loops: usize,
    /// How many arrays were alive where the choice began.
    choice: Option<usize>,
    stages: Vec<&'p str>,
    /// What the closure that comes next is handed, where it is known.
    handed: Vec<Value>,
    /// The rows that closures of the choice were handed, and that have not gone on yet.
    rows: BTreeSet<usize>,
}

impl<'p> Walker<'p> {
    pub fn new(
        program: &'p Program,
        leads: &'p Leads,
        findings: &'p mut Findings,
        quiet: &'p mut Quiet,
    ) -> Self {
        Self {
            program,
            leads,
            findings,
            quiet,
            way: Way::default(),
            frames: Vec::new(),
            alive: Vec::new(),
            noise: 0,
            loops: 0,
            choice: None,
            stages: Vec::new(),
            handed: Vec::new(),
            rows: BTreeSet::new(),
        }
    }

    fn frame(&mut self) -> &mut Frame<'p> {
        self.frames.last_mut().expect("a function is followed")
    }

    fn scope(&self) -> Scope<'p> {
        self.frames.last().expect("a function is followed").scope
    }

    fn leads_to_choice(&self, value: &Expr) -> bool {
        self.leads.within(self.program, self.scope(), value)
    }

    fn place(&self, line: usize) -> String {
        format!("{}:{line}", self.program.file(self.scope().module))
    }

    fn find(&mut self, line: usize, what: &str) {
        let place = self.place(line);
        let function = self.frame().path;
        self.noise += 1;
        self.findings.add(format!("{function}: {what} ({place})"));
    }

    /// What could not be told is a finding, and nothing further is asked of it.
    fn told(&mut self, line: usize, told: Told<Type>) -> Type {
        told.unwrap_or_else(|what| {
            self.find(line, &what);
            Type::Passed
        })
    }

    /// A finding, and a value of which nothing further is asked.
    fn unread(&mut self, line: usize, what: &str) -> Value {
        self.find(line, what);
        Value::passed()
    }

    fn value(&mut self, e: &'p Expr, ask: Ask) -> Value {
        if !ask.later && !self.leads_to_choice(e) {
            return Value::passed();
        }
        match &e.kind {
            Kind::Number(_, suffix) => Value::new(Type::number(suffix)),
            Kind::Bool => Value::new(Type::plain("bool")),
            Kind::Path(path) => self.named(e.line, path, ask),
            Kind::Unary(of) => Value::new(self.value(of, ask.unbound()).of),
            Kind::Deref(of) => self.behind(e.line, of, ask),
            Kind::Borrow { mutable, of } => self.lent(*mutable, of, ask),
            Kind::Binary(mark, left, right) => self.binary(mark, left, right, ask),
            Kind::Cast(of, tree) => self.cast(e.line, of, tree, ask),
            Kind::Call(path, given) => self.call(e.line, path, given, ask),
            Kind::Sized(path, length, given) => self.sized(e.line, (path, length), given, ask),
            Kind::Try(of) => self.tried(of, ask),
            Kind::Closure(parameters, body) => self.closure(e.line, parameters, body, ask),
            Kind::Matches(of, test, pattern) => self.matches(e.line, of, (test, pattern), ask),
            Kind::Tuple(parts) => self.tuple(e.line, parts, ask),
            Kind::Let(pattern, of) => self.tested(e.line, pattern, of, ask),
            Kind::Method(of, name, given) => self.method(e.line, (of, name), given, ask),
            Kind::Field(of, name) => self.field(e.line, of, name, ask),
            Kind::Index(of, index) => self.index(e.line, of, index, ask),
            Kind::Range(first, last) => self.range(first.iter().chain(last), ask),
            Kind::Repeat(of, length) => self.repeat(e.line, of, length, ask),
            Kind::Items(items) => self.items(e.line, items, ask),
            Kind::Struct(path, fields) => self.literal(e.line, path, fields, ask),
            Kind::If { test, then, other } => self.condition(e.line, test, (then, other), ask),
            Kind::Match(of, arms) => self.matched(e.line, of, arms, ask),
            Kind::Block(block) => self.inner_block(e.line, block, ask),
            Kind::While(test, body) => self.repeated(test, body, ask),
            Kind::For(pattern, of, body) => self.each_of(pattern, of, body, ask),
            Kind::Leave => Value::passed(),
            Kind::Return(given) => self.returned(given.as_deref()),
            Kind::Assign(place, given) => self.assign(e.line, place, given, ask),
        }
    }
}

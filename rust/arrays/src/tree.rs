//! What the parser makes of a file.

use std::collections::BTreeSet;

/// Names joined by `::`.
pub type Path = Vec<String>;

#[derive(Clone, Debug, PartialEq)]
pub enum TypeTree {
    Path(Path),
    /// With types in brackets.
    Generic(Path, Vec<TypeTree>),
    Array(Box<TypeTree>, Box<Expr>),
    Slice(Box<TypeTree>),
    Tuple(Vec<TypeTree>),
    /// A bound, as of a parameter that is called, with what it is handed then.
    Bound(Vec<TypeTree>),
    Reference {
        mutable: bool,
        inner: Box<TypeTree>,
    },
}

#[derive(Clone, Debug, PartialEq)]
pub struct Expr {
    pub line: usize,
    pub kind: Kind,
}

#[derive(Clone, Debug, PartialEq)]
pub enum Kind {
    /// Digits and suffix.
    Number(String, String),
    Bool,
    Path(Path),
    /// `-` or `!`.
    Unary(Box<Expr>),
    Deref(Box<Expr>),
    Borrow {
        mutable: bool,
        of: Box<Expr>,
    },
    Binary(&'static str, Box<Expr>, Box<Expr>),
    Cast(Box<Expr>, TypeTree),
    Call(Path, Vec<Expr>),
    /// `name::<3>(..)`.
    Sized(Path, Box<Expr>, Vec<Expr>),
    /// `e?`.
    Try(Box<Expr>),
    /// `|a, b: T| e`.
    Closure(Vec<(Pattern, Option<TypeTree>)>, Box<Expr>),
    /// `matches!(e, pattern)`.
    /// With what stands behind `if`.
    Matches(Box<Expr>, Option<Box<Expr>>, Box<Pattern>),
    Tuple(Vec<Expr>),
    /// `let pattern = e` as a test.
    Let(Box<Pattern>, Box<Expr>),
    Method(Box<Expr>, String, Vec<Expr>),
    Field(Box<Expr>, String),
    Index(Box<Expr>, Box<Expr>),
    Range(Option<Box<Expr>>, Option<Box<Expr>>),
    /// `[value; length]`.
    Repeat(Box<Expr>, Box<Expr>),
    /// `[a, b]`.
    Items(Vec<Expr>),
    /// A value without a name is what stands behind `..`.
    Struct(Path, Vec<(String, Expr)>),
    If {
        test: Box<Expr>,
        then: Block,
        other: Option<Box<Expr>>,
    },
    Match(Box<Expr>, Vec<Arm>),
    Block(Block),
    While(Box<Expr>, Block),
    For(Pattern, Box<Expr>, Block),
    /// `break` or `continue`.
    Leave,
    Return(Option<Box<Expr>>),
    Assign(Box<Expr>, Box<Expr>),
}

#[derive(Clone, Debug, PartialEq)]
pub struct Arm {
    pub pattern: Pattern,
    /// What stands behind `if`.
    pub test: Option<Expr>,
    pub value: Expr,
}

#[derive(Clone, Debug, PartialEq)]
pub enum Pattern {
    Any,
    Value,
    /// A name by itself: a new local.
    Name(String),
    /// A variant without payload.
    Path(Path),
    Tuple(Path, Vec<Pattern>),
    Struct(Path, Vec<(String, Pattern)>),
    /// `(a, b)`.
    Parts(Vec<Pattern>),
    /// `&a`.
    Behind(Box<Pattern>),
    Either(Vec<Pattern>),
}

#[derive(Clone, Debug, PartialEq)]
pub struct Block {
    pub statements: Vec<Statement>,
    pub tail: Option<Box<Expr>>,
}

#[derive(Clone, Debug, PartialEq)]
pub enum Statement {
    Let(Let),
    Expr(Expr),
}

#[derive(Clone, Debug, PartialEq)]
pub struct Let {
    pub line: usize,
    pub pattern: Pattern,
    pub annotation: Option<TypeTree>,
    pub value: Option<Expr>,
    /// What stands behind `else`, which leaves.
    pub other: Option<Block>,
}

#[derive(Clone, Debug, PartialEq)]
pub struct Parameter {
    pub name: String,
    pub line: usize,
    pub annotation: TypeTree,
}

#[derive(Clone, Debug, PartialEq)]
pub struct Function {
    pub name: String,
    pub line: usize,
    /// `pub`, and no `pub(crate)`.
    pub public: bool,
    /// The type of the `impl` block that it stands in.
    pub of: Option<String>,
    /// A length that a call names.
    pub length: Option<String>,
    /// The names of its parameters, and those that its patterns give.
    pub locals: BTreeSet<String>,
    pub parameters: Vec<Parameter>,
    pub result: Option<TypeTree>,
    pub body: Block,
}

#[derive(Clone, Debug, PartialEq)]
pub struct Constant {
    pub name: String,
    pub of: Option<String>,
    pub annotation: TypeTree,
    pub value: Expr,
}

#[derive(Clone, Debug, PartialEq)]
pub struct Variant {
    pub name: String,
    /// Fields without a name are called `0`, `1` and so on.
    pub fields: Vec<(String, TypeTree)>,
}

#[derive(Clone, Debug, PartialEq)]
pub enum Definition {
    Alias(TypeTree),
    Struct(Vec<(String, TypeTree)>),
    Enum(Vec<Variant>),
}

#[derive(Clone, Debug, Default, PartialEq)]
pub struct File {
    pub uses: Vec<Path>,
    /// Each with whether it is `pub`.
    pub modules: Vec<(String, bool)>,
    pub constants: Vec<Constant>,
    pub types: Vec<(String, Definition)>,
    pub functions: Vec<Function>,
}

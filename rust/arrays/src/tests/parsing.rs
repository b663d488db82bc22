use crate::parser::parse;
use crate::tree::{Block, Definition, Expr, File, Kind, Pattern, Statement, TypeTree};

fn file(text: &str) -> File {
    parse(text).unwrap_or_else(|failure| panic!("{text}: {failure:?}"))
}

/// The body of a function with these statements.
fn body(text: &str) -> Block {
    let mut file = file(&format!("fn f() {{ {text} }}"));
    file.functions.remove(0).body
}

fn tail(text: &str) -> Kind {
    body(text).tail.expect("a value at the end").kind
}

/// As it binds, in brackets.
fn shown(value: &Expr) -> String {
    match &value.kind {
        Kind::Number(digits, suffix) => format!("{digits}{suffix}"),
        Kind::Path(path) => path.join("::"),
        Kind::Unary(of) => format!("(- {})", shown(of)),
        Kind::Deref(of) => format!("(* {})", shown(of)),
        Kind::Borrow { mutable, of } => {
            format!("(&{} {})", if *mutable { "mut" } else { "" }, shown(of))
        }
        Kind::Binary(mark, left, right) => format!("({} {mark} {})", shown(left), shown(right)),
        Kind::Cast(of, TypeTree::Path(path)) => format!("({} as {})", shown(of), path.join("::")),
        Kind::Call(path, given) => {
            let given: Vec<String> = given.iter().map(shown).collect();
            format!("{}({})", path.join("::"), given.join(", "))
        }
        Kind::Method(of, name, given) => format!("{}.{name}/{}", shown(of), given.len()),
        Kind::Field(of, name) => format!("{}.{name}", shown(of)),
        Kind::Index(of, index) => format!("{}[{}]", shown(of), shown(index)),
        Kind::Range(first, last) => {
            let end = |e: &Option<Box<Expr>>| e.as_deref().map(shown).unwrap_or_default();
            format!("{}..{}", end(first), end(last))
        }
        other => format!("{other:?}"),
    }
}

fn binds(text: &str, as_shown: &str) {
    let value = body(text).tail.expect("a value at the end");
    assert_eq!(shown(&value), as_shown);
}

fn refused(text: &str) {
    assert!(parse(text).is_err(), "{text}");
}

#[test]
fn expressions() {
    binds("a + b * c % d", "(a + ((b * c) % d))");
    binds("a as u64 * 2 + b as u64", "(((a as u64) * 2) + (b as u64))");
    binds("(a as u32) < b", "((a as u32) < b)");
    binds("a / 2 % 2 == 1", "(((a / 2) % 2) == 1)");
    binds("x >> (150 - e)", "(x >> (150 - e))");
    binds("-top < x", "((- top) < x)");
    binds("!rows::same(a, b)", "(- rows::same(a, b))");
    binds("f(&mut *rows, &all)", "f((&mut (* rows)), (& all))");
    binds("&job[at + 4..end]", "(& job[(at + 4)..end])");
    binds("rows[i][rows::MARKS]", "rows[i][rows::MARKS]");
    binds("own.weight.value", "own.weight.value");
    binds("f(x)\n.added(a)\n.added(b)", "f(x).added/1.added/1");
    binds("f32::from_bits(0x7F80_0000)", "f32::from_bits(0x7F800000)");
}

#[test]
fn arrays_and_structs() {
    assert!(matches!(tail("[[0u32; COLUMNS]; 64]"), Kind::Repeat(_, _)));
    assert!(matches!(tail("[a, b, c,]"), Kind::Items(items) if items.len() == 3));
    assert!(matches!(tail("At { refusal: 18, at }"), Kind::Struct(_, fields) if fields.len() == 2));
    assert!(matches!(tail("Self { next: 0 }"), Kind::Struct(path, _) if path == ["Self"]));
    let Kind::If { test, .. } = tail("if a < b { c } else { d }") else {
        panic!("no if");
    };
    assert_eq!(shown(&test), "(a < b)");
}

#[test]
fn statements() {
    let seen =
        body("let mut i: usize = 0; while i < n { i += 1; } rows[i] = x; if a { return; } i");
    assert_eq!(seen.statements.len(), 4);
    assert!(
        matches!(&seen.statements[0], Statement::Let(l) if l.pattern == Pattern::Name("i".into()) && l.annotation.is_some())
    );
    assert!(
        matches!(&seen.statements[1], Statement::Expr(e) if matches!(e.kind, Kind::While(_, _)))
    );
    assert!(
        matches!(&seen.statements[2], Statement::Expr(e) if matches!(e.kind, Kind::Assign(_, _)))
    );
    assert!(matches!(&seen.statements[3], Statement::Expr(e) if matches!(e.kind, Kind::If { .. })));
    assert_eq!(seen.tail.map(|tail| shown(&tail)), Some("i".into()));
}

#[test]
fn a_formed_statement_ends_with_its_block() {
    let seen = body("if a { b(); } &x");
    assert_eq!(seen.statements.len(), 1);
    assert_eq!(seen.tail.map(|tail| shown(&tail)), Some("(& x)".into()));
    let chain = tail("if a { 1 } else if b { 2 } else { 3 }");
    assert!(matches!(chain, Kind::If { other: Some(e), .. } if matches!(e.kind, Kind::If { .. })));
}

#[test]
fn matches_and_patterns() {
    let text =
        "match x { A::B => 0, A::C(y, _) => { z } A::D { at, end } => return w, 7 => 1, _ => v, }";
    let Kind::Match(_, arms) = tail(text) else {
        panic!("no match");
    };
    let patterns: Vec<&Pattern> = arms.iter().map(|arm| &arm.pattern).collect();
    assert!(matches!(patterns[0], Pattern::Path(path) if path.len() == 2));
    assert!(matches!(patterns[1], Pattern::Tuple(_, inner) if inner[1] == Pattern::Any));
    assert!(matches!(patterns[2], Pattern::Struct(_, inner) if inner.len() == 2));
    assert_eq!(patterns[3..], [&Pattern::Value, &Pattern::Any]);
}

#[test]
fn functions_with_clauses() {
    let text = "pub(crate) fn data<'a>(mut self, file: &'a [u8], out: &mut [Row; 64]) -> &'a [u8]
        requires { f {x} < 2 ^ 32 }
        ensures demand { (result ≡ «a_b») × (λ (y : Face). y.percent) file.now }
    { file }";
    let function = &file(text).functions[0];
    assert_eq!(function.name, "data");
    assert!(!function.public);
    let names: Vec<&str> = function
        .parameters
        .iter()
        .map(|p| p.name.as_str())
        .collect();
    assert_eq!(names, ["self", "file", "out"]);
    assert!(matches!(
        function.parameters[2].annotation,
        TypeTree::Reference { mutable: true, .. }
    ));
    assert!(function.body.tail.is_some());
    assert!(file("#[unsafe(no_mangle)]\npub extern \"C\" fn f() {}").functions[0].public);
}

#[test]
fn other_items() {
    let text = "// The head.
        #![tactic(auto)]
        ghost use Rattle.query.specs.{◌≡◌, []};
        use crate::a::b;
        use crate::{c, d};
        use font::e::{F,};
        pub mod one; mod two;
        pub type Row = [u32; 5];
        #[derive(Clone, Copy)]
        struct S { pub a: u8, b: [S; N] }
        enum E { A, B(u8, f32), C { at: usize } }
        impl S { pub const N: S = S { a: 1 }; fn new() -> Self { S::N } }
        const N: usize = 4 * 16;";
    let seen = file(text);
    let uses: Vec<String> = seen.uses.iter().map(|path| path.join("::")).collect();
    assert_eq!(uses, ["crate::a::b", "crate::c", "crate::d", "font::e::F"]);
    assert_eq!(seen.modules, [("one".into(), true), ("two".into(), false)]);
    assert_eq!(seen.constants.len(), 2);
    assert_eq!(seen.functions[0].of.as_deref(), Some("S"));
    let Definition::Enum(variants) = &seen.types[2].1 else {
        panic!("no enum");
    };
    let sizes: Vec<usize> = variants.iter().map(|v| v.fields.len()).collect();
    assert_eq!(sizes, [0, 2, 1]);
}

#[test]
fn closures() {
    let Kind::Method(_, name, given) = tail("a.map_or(0, |b| b + 1)") else {
        panic!("no method");
    };
    assert_eq!(name, "map_or");
    assert!(
        matches!(&given[1].kind, Kind::Closure(given, of) if given.len() == 1 && shown(of) == "(b + 1)")
    );
    let Kind::Closure(given, of) = tail("move |(a, _), &b, c: [u8; 64]| -> u8 { a }") else {
        panic!("no closure");
    };
    let patterns: Vec<&Pattern> = given.iter().map(|(pattern, _)| pattern).collect();
    assert!(matches!(patterns[0], Pattern::Parts(parts) if parts.len() == 2));
    assert!(matches!(patterns[1], Pattern::Behind(_)));
    assert!(matches!(given[2].1, Some(TypeTree::Array(_, _))));
    assert!(matches!(of.kind, Kind::Block(_)));
    let with_clauses = "|| requires { a { b } } ensures c { d } { e }";
    assert!(matches!(tail(with_clauses), Kind::Closure(given, _) if given.is_empty()));
}

#[test]
fn loops_over_what_there_is() {
    let seen = body(
        "for (i, &x) in rows[..n].iter().enumerate() { continue; } for _ in 0..=n { break; } n",
    );
    let kinds: Vec<&Kind> = seen
        .statements
        .iter()
        .map(|s| match s {
            Statement::Expr(e) => &e.kind,
            Statement::Let(_) => panic!("a let"),
        })
        .collect();
    assert!(
        matches!(kinds[0], Kind::For(Pattern::Parts(parts), of, _) if parts.len() == 2 && shown(of) == "rows[..n].iter/0.enumerate/0")
    );
    assert!(matches!(kinds[1], Kind::For(Pattern::Any, of, _) if shown(of) == "0..n"));
}

#[test]
fn tests_that_bind() {
    assert!(matches!(tail("f(x)?.y"), Kind::Field(of, _) if matches!(of.kind, Kind::Try(_))));
    let seen = body("let Some(x) = f(y) else { return z; };");
    assert!(
        matches!(&seen.statements[0], Statement::Let(l) if l.other.is_some() && matches!(l.pattern, Pattern::Tuple(_, _)))
    );
    let Kind::If { test, .. } = tail("if let Some(x) = f(y) && x < z { x } else { z }") else {
        panic!("no if");
    };
    let Kind::Binary("&&", first, second) = test.kind else {
        panic!("no two tests");
    };
    assert!(matches!(first.kind, Kind::Let(_, of) if shown(&of) == "f(y)"));
    assert_eq!(shown(&second), "(x < z)");
    assert!(
        matches!(tail("while let Some(x) = f(y) { }"), Kind::While(test, _) if matches!(test.kind, Kind::Let(_, _)))
    );
    let Kind::Matches(of, test, pattern) = tail("matches!(f(x), Ok(Some(y)) if y < z)") else {
        panic!("no matches");
    };
    assert_eq!(shown(&of), "f(x)");
    assert!(test.is_some() && matches!(*pattern, Pattern::Tuple(_, _)));
}

#[test]
fn parts_and_bases() {
    assert!(matches!(tail("(a, b.0, c)"), Kind::Tuple(parts) if shown(&parts[1]) == "b.0"));
    let Kind::Struct(_, fields) = tail("Walked { a, b: 1, ..c }") else {
        panic!("no struct");
    };
    let names: Vec<&str> = fields.iter().map(|(name, _)| name.as_str()).collect();
    assert_eq!(names, ["a", "b", ""]);
    let seen = body(
        "let (a, mut b) = x; let S { c, d: 0..=9, .. } = y; match z { 1 | 2 => a, n if n < b => c, &m => m }",
    );
    let patterns = seen.statements.iter().map(|s| match s {
        Statement::Let(l) => &l.pattern,
        Statement::Expr(_) => panic!("no let"),
    });
    let counts: Vec<usize> = patterns
        .map(|p| match p {
            Pattern::Parts(parts) => parts.len(),
            Pattern::Struct(_, fields) => fields.len(),
            _ => 0,
        })
        .collect();
    assert_eq!(counts, [2, 2]);
    let Some(Kind::Match(_, arms)) = seen.tail.map(|tail| tail.kind) else {
        panic!("no match");
    };
    assert!(matches!(&arms[0].pattern, Pattern::Either(all) if all.len() == 2));
    assert!(arms[1].test.is_some());
    assert!(matches!(&arms[2].pattern, Pattern::Behind(_)));
}

#[test]
fn generic_functions() {
    let text = "fn put<'a, const N: usize, F: Fn(Row, [u8; 64]) -> u64 + Copy>(out: &'a mut [u8; N], by: F, to: impl Fn(u8)) -> Option<Result<&'a [u8], Refusal>> { by(x, y); put::<4>(z) }";
    let function = &file(text).functions[0];
    assert_eq!(function.length.as_deref(), Some("N"));
    let handed: Vec<usize> = function
        .parameters
        .iter()
        .map(|p| match &p.annotation {
            TypeTree::Bound(handed) => handed.len(),
            _ => 0,
        })
        .collect();
    assert_eq!(handed, [0, 2, 1]);
    assert!(
        matches!(&function.result, Some(TypeTree::Generic(path, given)) if path.concat() == "Option" && given.len() == 1)
    );
    let tail = function.body.tail.as_ref().expect("a value at the end");
    assert!(
        matches!(&tail.kind, Kind::Sized(_, length, given) if shown(length) == "4" && given.len() == 1)
    );
    let locals: Vec<&str> = function.locals.iter().map(String::as_str).collect();
    assert_eq!(locals, ["by", "out", "to"]);
}

#[test]
fn traits_that_are_given() {
    let text = r#"use std::fmt;
        #[derive(Drop)]
        pub struct Search<'a> { pub rows: &'a [Row], families: [u32; 64], ghost loaded: { Loaded rows {now} } }
        #[derive(Clone, Default)]
        pub enum Reading { #[default] AsStated, Opposite }
        impl TryFrom<u32> for Reading {
            type Error = Refusal;
            ghost try_from_gives = { ReadingOf };
            #[tactic(auto, unfolding(a::b, c))]
            fn try_from(number: u32) -> Result<Self, Refusal> { Err(number) }
        }
        impl fmt::Display for Reading {
            fn fmt<W: fmt::Write>(&self, f: &mut fmt::Formatter<W>) -> fmt::Result { write!(f, "{} {}", self.number(), 1) }
        }
        impl Error for Reading {}
        impl<'a> Search<'a> { ghost use Rattle.a.{b}; pub(crate) fn step(&mut self) { } }"#;
    let seen = file(text);
    let Definition::Struct(fields) = &seen.types[0].1 else {
        panic!("no struct");
    };
    let names: Vec<&str> = fields.iter().map(|(name, _)| name.as_str()).collect();
    assert_eq!(names, ["rows", "families"]);
    let functions: Vec<String> = seen
        .functions
        .iter()
        .map(|f| format!("{}::{} {}", f.of.as_deref().unwrap_or(""), f.name, f.public))
        .collect();
    assert_eq!(
        functions,
        [
            "Reading::try_from true",
            "Reading::fmt true",
            "Search::step false"
        ]
    );
    let printed = seen.functions[1].body.tail.as_ref().map(|tail| &tail.kind);
    assert!(matches!(printed, Some(Kind::Tuple(parts)) if shown(&parts[2]) == "self.number/0"));
}

#[test]
fn what_is_refused_in_a_function() {
    refused("fn f() { loop { } }");
    refused("fn f() { 'a: while b { } }");
    refused("fn f() { g!(x); }");
    refused("fn f() { println!(x); }");
    refused("fn f() { a b }");
    refused("fn f() { for i { } }");
    refused("fn f() { let Some(a) = b else c; }");
    refused("fn f() { unsafe { } }");
    refused("fn f() { a.b::<c>() }");
    refused("fn f() { matches!(a) }");
    refused("fn f<const N: usize, const M: usize>() { }");
    refused("fn f() { let S { a, .., b } = c; }");
}

#[test]
fn what_is_refused() {
    refused("struct S<T> { a: T }");
    refused("impl<T> S<T> { }");
    refused("struct S(u8);");
    refused("static A: u8 = 0;");
    refused("impl S { ghost fn f() { } }");
    refused("use a::{b, c::d};");
    refused("use a::{b as c};");
    refused("use a::{b::{c}};");
    refused("use a::{self};");
    refused("use a::*;");
    refused("use {a, b};");
    refused("#[cfg(test)]\nfn f() { }");
    refused("#[derive(Clone, Serialize)]\nstruct S { }");
    refused("#[unsafe(naked)]\nfn f() { }");
    refused("#[unsafe(no_mangle)(x)]\nfn f() { }");
    refused("#![cfg(test)]");
    refused("fn f() { }\n#![tactic(auto)]");
    refused("trait T { }");
    refused("fn f() { a");
    refused("fn f() requires { a");
    refused("ghost fn f() { }");
    refused("fn f() { 64u }");
    refused("fn f() { 1e3 }");
    refused("fn f() { 0b12 }");
    refused("fn f() { 0X40 }");
    refused("const N: usize = 0d64;");
    refused("fn f(x: [u8; 64u65]) { }");
    refused("fn f() { match x { 1u => a, _ => b } }");
}

//! The values of constants and of the lengths of arrays.

use crate::program::{Program, Scope};
use crate::tokens::BASES;
use crate::tree::{Expr, Kind};
use crate::types::Told;

/// How deep a constant may refer to others.
const DEEPEST: usize = 32;

pub fn number(program: &Program, scope: Scope, value: &Expr) -> Told<usize> {
    number_at(program, scope, value, 0)
}

fn literal(digits: &str) -> Told<usize> {
    let mut read = digits.parse();
    for (prefix, base) in BASES {
        if let Some(digits) = digits.strip_prefix(prefix) {
            read = usize::from_str_radix(digits, base);
        }
    }
    read.map_err(|_| format!("{digits} is no whole number"))
}

fn computed(mark: &str, left: usize, right: usize) -> Option<usize> {
    match mark {
        "+" => left.checked_add(right),
        "-" => left.checked_sub(right),
        "*" => left.checked_mul(right),
        "/" => left.checked_div(right),
        "%" => left.checked_rem(right),
        _ => None,
    }
}

fn number_at(program: &Program, scope: Scope, value: &Expr, depth: usize) -> Told<usize> {
    if depth == DEEPEST {
        return Err("a constant refers to itself".into());
    }
    match &value.kind {
        Kind::Number(digits, _) => literal(digits),
        Kind::Cast(inner, _) => number_at(program, scope, inner, depth),
        Kind::Path(path) => {
            if let Some((name, length)) = scope.length
                && path.concat() == name
            {
                return Ok(length);
            }
            let unknown = || format!("the value of {} is not known", path.join("::"));
            let whole = program.whole(scope, path).ok_or_else(unknown)?;
            let item = program.constants.get(&whole).ok_or_else(unknown)?;
            let inner = Scope {
                of: item.value.of.as_deref(),
                ..Scope::of_module(item.module)
            };
            number_at(program, inner, &item.value.value, depth + 1)
        }
        Kind::Binary(mark, left, right) => {
            let left = number_at(program, scope, left, depth)?;
            let right = number_at(program, scope, right, depth)?;
            computed(mark, left, right).ok_or(format!("{left} {mark} {right} is not known"))
        }
        _ => Err("a length is not known".into()),
    }
}

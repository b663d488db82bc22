//! What std gives: calls and methods that are not of our crates.

use super::{Ask, Value, Walker};
use crate::types::Type;

/// Calls, with the type of their result.
pub const OUTSIDE: [(&str, &str); 14] = [
    ("f32::to_bits", "u32"),
    ("f32::from_bits", "f32"),
    ("u32::leading_zeros", "u32"),
    ("u32::from", "u32"),
    ("u16::from_be_bytes", "u16"),
    ("u16::from_le_bytes", "u16"),
    ("u32::from_be_bytes", "u32"),
    ("u32::from_le_bytes", "u32"),
    ("saturating_f32_to_i8", "i8"),
    ("saturating_f32_to_u32", "u32"),
    ("usize::from", "usize"),
    ("u8::from", "u8"),
    ("u16::from", "u16"),
    ("u64::from", "u64"),
];

/// What a method gives.
#[derive(Clone, Copy)]
enum Given {
    Size,
    Flag,
    /// The same as what it is asked of.
    Same,
    /// The same, which may be there.
    Whole,
    /// What may be there.
    Inner,
    /// What its closure gives, which may be there.
    Perhaps,
    /// What its closure gives, or its last value.
    Last,
    /// An entry, which may be there, or entries one by one.
    Entry,
    /// Entries by value.
    Copied,
    /// Entries with their numbers.
    Numbered,
    /// Entries of two.
    Both,
    Place,
    /// A number of as many bytes without a sign, or with one.
    Unsigned,
    Signed,
    /// The bytes of a number: an array.
    Bytes,
    Nothing,
}

const METHODS: [(&str, Given); 66] = [
    ("len", Given::Size),
    ("count", Given::Size),
    ("leading_zeros", Given::Same),
    ("is_empty", Given::Flag),
    ("is_some", Given::Flag),
    ("is_none", Given::Flag),
    ("is_ok", Given::Flag),
    ("is_err", Given::Flag),
    ("is_some_and", Given::Flag),
    ("is_none_or", Given::Flag),
    ("is_ok_and", Given::Flag),
    ("is_nan", Given::Flag),
    ("is_finite", Given::Flag),
    ("is_sign_negative", Given::Flag),
    ("any", Given::Flag),
    ("all", Given::Flag),
    ("contains", Given::Flag),
    ("eq", Given::Flag),
    ("lt", Given::Flag),
    ("min", Given::Same),
    ("max", Given::Same),
    ("clamp", Given::Same),
    ("abs", Given::Same),
    ("neg", Given::Same),
    ("swap_bytes", Given::Same),
    ("wrapping_neg", Given::Same),
    ("wrapping_add", Given::Same),
    ("wrapping_sub", Given::Same),
    ("saturating_add", Given::Same),
    ("checked_add", Given::Whole),
    ("checked_sub", Given::Whole),
    ("checked_mul", Given::Whole),
    ("saturating_sub", Given::Same),
    ("unsigned_abs", Given::Unsigned),
    ("cast_unsigned", Given::Unsigned),
    ("cast_signed", Given::Signed),
    ("to_bits", Given::Unsigned),
    ("unwrap", Given::Inner),
    ("unwrap_or", Given::Inner),
    ("unwrap_or_else", Given::Inner),
    ("unwrap_or_default", Given::Inner),
    ("ok", Given::Same),
    ("ok_or", Given::Same),
    ("map_err", Given::Same),
    ("or_else", Given::Same),
    ("and", Given::Last),
    ("filter", Given::Same),
    ("map", Given::Perhaps),
    ("then", Given::Perhaps),
    ("then_some", Given::Perhaps),
    ("and_then", Given::Last),
    ("map_or", Given::Last),
    ("get", Given::Entry),
    ("get_mut", Given::Entry),
    ("first", Given::Entry),
    ("iter", Given::Entry),
    ("iter_mut", Given::Entry),
    ("copied", Given::Copied),
    ("position", Given::Place),
    ("find", Given::Same),
    ("zip", Given::Both),
    ("enumerate", Given::Numbered),
    ("rev", Given::Same),
    ("take", Given::Same),
    ("skip", Given::Same),
    ("to_be_bytes", Given::Bytes),
];

/// Methods that are given an error.
const ERRORS: [&str; 2] = ["ok_or", "map_err"];

/// Methods that give nothing, and write what they are asked of.
pub const WRITING: [&str; 1] = ["copy_from_slice"];

pub fn is_known(name: &str) -> bool {
    WRITING.contains(&name) || METHODS.iter().any(|(known, _)| *known == name)
}

fn perhaps(inner: Type) -> Type {
    Type::Perhaps(Box::new(inner))
}

/// What comes one by one, if it is known.
fn each_of(of: &Type) -> Type {
    match of.target() {
        Type::Array(inner, _) | Type::Slice(inner) | Type::Perhaps(inner) => (**inner).clone(),
        _ => Type::Passed,
    }
}

/// Methods whose closure is handed what there is, and those where it is lent.
const HANDED: [&str; 9] = [
    "position",
    "any",
    "all",
    "map",
    "is_some_and",
    "is_none_or",
    "is_ok_and",
    "and_then",
    "map_or",
];
const LENT: [&str; 2] = ["find", "filter"];

/// What a method of std hands to its closure, if it is known.
pub(super) fn handed_by_std(name: &str, receiver: &Value) -> Vec<Value> {
    let mut of = each_of(&receiver.of);
    if LENT.contains(&name) {
        let (mutable, inner) = (false, Box::new(of));
        of = Type::Reference { mutable, inner };
    } else if !HANDED.contains(&name) {
        return Vec::new();
    }
    let storage = receiver.storage.clone();
    vec![Value { of, storage }]
}

/// The number of the bits of another one.
fn of_bits(of: &Type, signed: bool) -> Type {
    let Type::Plain(name) = of.target() else {
        return Type::Passed;
    };
    let bits = name.trim_start_matches(|c: char| c.is_ascii_alphabetic());
    Type::plain(&format!("{}{bits}", if signed { "i" } else { "u" }))
}

/// The type of what a rule gives, by the types of the receiver and of the last that is given.
fn type_given(rule: Given, receiver: &Type, last: Type, name: &str) -> Type {
    let inner = each_of(receiver);
    match rule {
        Given::Size => Type::plain("usize"),
        Given::Flag => Type::plain("bool"),
        Given::Same => receiver.clone(),
        Given::Whole => perhaps(receiver.target().clone()),
        Given::Inner => inner.or(last),
        Given::Perhaps => perhaps(last),
        Given::Last => last,
        Given::Entry if inner == Type::Passed => Type::Passed,
        Given::Entry => perhaps(Type::Reference {
            mutable: name.ends_with("mut"),
            inner: Box::new(inner),
        }),
        Given::Copied => perhaps(inner.target().clone()),
        Given::Numbered => perhaps(Type::Tuple(vec![Type::plain("usize"), inner])),
        Given::Both => perhaps(Type::Tuple(vec![inner, each_of(&last)])),
        Given::Place => perhaps(Type::plain("usize")),
        Given::Unsigned => of_bits(receiver, false),
        Given::Signed => of_bits(receiver, true),
        Given::Bytes | Given::Nothing => Type::Passed,
    }
}

impl Walker<'_> {
    /// The value of a method of std. What it lies in is where its receiver and what it is given lie.
    pub(super) fn of_std(
        &mut self,
        line: usize,
        name: &str,
        receiver: Value,
        given: Vec<Value>,
        ask: Ask,
    ) -> Value {
        let found = METHODS.iter().find(|(known, _)| *known == name);
        let rule = found.map_or(Given::Nothing, |(_, rule)| *rule);
        let last = given.last().map_or(Type::Passed, |v| v.of.clone());
        if ERRORS.contains(&name) {
            self.fresh(line, last.clone(), ask.unbound());
        }
        let mut of = type_given(rule, &receiver.of, last, name);
        if matches!(rule, Given::Bytes) {
            let (bytes, _) = self.program.layout(&receiver.of).unwrap_or_default();
            of = Type::Array(Box::new(Type::plain("u8")), bytes);
            self.made(line, &of);
        }
        let mut value = self.fresh(line, of, ask);
        value.storage.extend(receiver.storage);
        for other in given {
            value.storage.extend(other.storage);
        }
        value
    }
}

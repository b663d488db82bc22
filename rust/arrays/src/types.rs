//! Types, with their lengths known, and the arrays that they hold.

use std::fmt;

use crate::constants::number;
use crate::program::{Program, Scope};
use crate::tree::{Definition, TypeTree};

/// The most entries of an array that is no list: what one face has, its row of five numbers or its 16 axes. It is for
/// the part before the choice, where the faces are taken.
pub const MOST_OF_A_FACE: usize = 16;

/// The most entries that are alive together in the choice: the row of the one face that a scan looks at.
pub const MOST_IN_THE_CHOICE: usize = 5;

/// The type of that row: a struct, which counts as a short array of its numbers.
const ROW: &str = "matching::rows::Row";

#[derive(Clone, Debug, PartialEq, Eq)]
pub enum Type {
    /// Of a value that is not on the way: nothing is asked of it.
    Passed,
    Unit,
    /// A number without suffix, or a number of a named type, or `bool`.
    Plain(String),
    Array(Box<Type>, usize),
    Slice(Box<Type>),
    Reference {
        mutable: bool,
        inner: Box<Type>,
    },
    /// A struct or an enum, by its whole path.
    Named(String),
    /// What may be there: an `Option` or a `Result`, of whose errors none has an array.
    Perhaps(Box<Type>),
    Tuple(Vec<Type>),
}

const PLAIN: [(&str, usize); 13] = [
    ("u8", 1),
    ("i8", 1),
    ("bool", 1),
    ("u16", 2),
    ("i16", 2),
    ("u32", 4),
    ("i32", 4),
    ("f32", 4),
    ("u64", 8),
    ("i64", 8),
    ("f64", 8),
    ("usize", 8),
    ("isize", 8),
];

/// The arrays that a value holds.
#[derive(Clone, Debug, Default, PartialEq, Eq)]
pub struct Held {
    /// The entries of each list.
    pub lists: Vec<usize>,
    /// The entries of all arrays that are no lists, together.
    pub small: usize,
    /// How many arrays there are.
    pub arrays: usize,
}

impl Held {
    fn add(&mut self, other: &Held) {
        self.lists.extend(&other.lists);
        self.small += other.small;
        self.arrays += other.arrays;
    }
}

impl fmt::Display for Type {
    fn fmt(&self, f: &mut fmt::Formatter<'_>) -> fmt::Result {
        match self {
            Self::Passed => write!(f, "?"),
            Self::Unit => write!(f, "()"),
            Self::Plain(name) => write!(f, "{name}"),
            Self::Array(inner, length) => write!(f, "[{inner}; {length}]"),
            Self::Slice(inner) => write!(f, "[{inner}]"),
            Self::Reference { mutable, inner } => {
                write!(f, "&{}{inner}", if *mutable { "mut " } else { "" })
            }
            Self::Named(path) => write!(f, "{}", path.rsplit("::").next().unwrap_or(path)),
            Self::Perhaps(inner) => write!(f, "Option<{inner}>"),
            Self::Tuple(parts) => {
                let parts: Vec<String> = parts.iter().map(ToString::to_string).collect();
                write!(f, "({})", parts.join(", "))
            }
        }
    }
}

impl Type {
    pub fn plain(name: &str) -> Self {
        Self::Plain(name.into())
    }

    /// Of a number with a suffix, which may be empty.
    pub fn number(suffix: &str) -> Self {
        Self::plain(if suffix.is_empty() { "number" } else { suffix })
    }

    pub fn is_reference(&self) -> bool {
        matches!(self, Self::Reference { .. })
    }

    /// Whether it is the type of a face's row.
    pub fn is_row(&self) -> bool {
        matches!(self, Self::Named(path) if path == ROW)
    }

    /// The type of a value by two that are told of it: `None` leaves open what there may be.
    pub fn or(self, other: Self) -> Self {
        match (self, other) {
            (one, Self::Passed) => one,
            (Self::Passed | Self::Unit, other) => other,
            (Self::Perhaps(one), Self::Perhaps(other)) => Self::Perhaps(Box::new(one.or(*other))),
            (Self::Tuple(ones), Self::Tuple(others)) if ones.len() == others.len() => {
                let parts = ones.into_iter().zip(others);
                Self::Tuple(parts.map(|(one, other)| one.or(other)).collect())
            }
            (one, _) => one,
        }
    }

    /// The type behind references.
    pub fn target(&self) -> &Self {
        match self {
            Self::Reference { inner, .. } => inner.target(),
            other => other,
        }
    }
}

pub fn is_plain(name: &str) -> bool {
    PLAIN.iter().any(|(plain, _)| *plain == name)
}

pub type Told<T> = Result<T, String>;

impl Program {
    pub fn type_of(&self, scope: Scope, tree: &TypeTree) -> Told<Type> {
        match tree {
            TypeTree::Path(path) => self.named_type(scope, path),
            TypeTree::Generic(path, given) => match (path.concat().as_str(), &given[..]) {
                ("Option", [inner]) => Ok(Type::Perhaps(Box::new(self.type_of(scope, inner)?))),
                ("Result", [inner, error]) => {
                    let error = self.type_of(scope, error)?;
                    if 0 < self.held(&error)?.arrays {
                        return Err(format!("the error {error} has an array"));
                    }
                    Ok(Type::Perhaps(Box::new(self.type_of(scope, inner)?)))
                }
                _ => Err(format!("the type {} is not known", path.join("::"))),
            },
            TypeTree::Tuple(parts) if parts.is_empty() => Ok(Type::Unit),
            TypeTree::Tuple(parts) => {
                let parts = parts.iter().map(|part| self.type_of(scope, part));
                Ok(Type::Tuple(parts.collect::<Told<_>>()?))
            }
            TypeTree::Bound(_) => Ok(Type::Passed),
            TypeTree::Array(inner, length) => {
                let inner = Box::new(self.type_of(scope, inner)?);
                Ok(Type::Array(inner, number(self, scope, length)?))
            }
            TypeTree::Slice(inner) => Ok(Type::Slice(Box::new(self.type_of(scope, inner)?))),
            TypeTree::Reference { mutable, inner } => Ok(Type::Reference {
                mutable: *mutable,
                inner: Box::new(self.type_of(scope, inner)?),
            }),
        }
    }

    fn named_type(&self, scope: Scope, path: &[String]) -> Told<Type> {
        if let Some(whole) = self.whole(scope, path)
            && let Some(item) = self.types.get(&whole)
        {
            if let Definition::Alias(tree) = &item.value {
                let module = item.module;
                return self.type_of(Scope::of_module(module), tree);
            }
            return Ok(Type::Named(whole));
        }
        match path {
            [name] if is_plain(name) => Ok(Type::plain(name)),
            _ => Err(format!("the type {} is not known", path.join("::"))),
        }
    }

    /// The fields of a struct, or of a variant of an enum, with their types.
    pub fn fields(&self, path: &str, variant: usize) -> Told<Vec<(String, Type)>> {
        let item = self.types.get(path).ok_or(format!("no type {path}"))?;
        let fields = match &item.value {
            Definition::Struct(fields) => fields,
            Definition::Enum(variants) => &variants[variant].fields,
            Definition::Alias(_) => return Err(format!("{path} has no fields")),
        };
        let module = item.module;
        let scope = Scope::of_module(module);
        let mut all = Vec::new();
        for (name, tree) in fields {
            all.push((name.clone(), self.type_of(scope, tree)?));
        }
        Ok(all)
    }

    fn variants(&self, path: &str) -> usize {
        match self.types.get(path).map(|item| &item.value) {
            Some(Definition::Enum(variants)) => variants.len(),
            _ => 1,
        }
    }

    /// The arrays that a value of a type holds; of an enum those of the variant with the most.
    pub fn held(&self, of: &Type) -> Told<Held> {
        match of {
            Type::Array(inner, length) => self.held_by_array(inner, *length),
            Type::Named(_) if of.is_row() => self.held_by_row(),
            Type::Named(path) => {
                let mut most = Held::default();
                for variant in 0..self.variants(path) {
                    let mut held = Held::default();
                    for (_, field) in self.fields(path, variant)? {
                        held.add(&self.held(&field)?);
                    }
                    let measure =
                        |h: &Held| (h.lists.len(), h.lists.iter().sum::<usize>(), h.small);
                    if measure(&most) < measure(&held) {
                        most = held;
                    }
                }
                Ok(most)
            }
            Type::Perhaps(inner) => self.held(inner),
            Type::Tuple(parts) => {
                let mut held = Held::default();
                for part in parts {
                    held.add(&self.held(part)?);
                }
                Ok(held)
            }
            _ => Ok(Held::default()),
        }
    }

    /// Whether a value of the type is a reference or holds one.
    pub fn lends(&self, of: &Type) -> bool {
        self.refers(of, false)
    }

    /// Whether a value of the type is a reference by which is written, or holds one.
    pub fn lends_to_write(&self, of: &Type) -> bool {
        self.refers(of, true)
    }

    fn refers(&self, of: &Type, to_write: bool) -> bool {
        match of {
            Type::Reference { mutable, inner } => {
                *mutable || !to_write || self.refers(inner, to_write)
            }
            Type::Array(inner, _) | Type::Perhaps(inner) => self.refers(inner, to_write),
            Type::Tuple(parts) => parts.iter().any(|part| self.refers(part, to_write)),
            Type::Named(path) => (0..self.variants(path)).any(|variant| {
                let fields = self.fields(path, variant).unwrap_or_default();
                fields.iter().any(|(_, field)| self.refers(field, to_write))
            }),
            Type::Passed | Type::Unit | Type::Plain(_) | Type::Slice(_) => false,
        }
    }

    /// The numbers of a row count as the entries of one array.
    fn held_by_row(&self) -> Told<Held> {
        let fields = self.fields(ROW, 0)?;
        let mut held = self.held_by_array(&Type::plain("u32"), fields.len())?;
        for (_, field) in fields {
            held.add(&self.held(&field)?);
        }
        Ok(held)
    }

    /// Short arrays in a short one, or rows, count as one of all their entries.
    fn held_by_array(&self, inner: &Type, length: usize) -> Told<Held> {
        let each = self.held(inner)?;
        let mut held = Held::default();
        let nested = matches!(inner, Type::Array(_, _)) || inner.is_row();
        let entries = if nested && length <= MOST_OF_A_FACE {
            each.small * length
        } else {
            length
        };
        if MOST_OF_A_FACE < entries && each.lists.is_empty() {
            held.lists.push(entries);
            held.arrays = 1;
            return Ok(held);
        }
        if MOST_OF_A_FACE < length {
            held.lists.push(length);
        }
        for _ in 0..length {
            held.lists.extend(&each.lists);
        }
        held.small = if nested {
            entries
        } else {
            length + each.small * length
        };
        held.arrays = 1 + each.arrays * length;
        Ok(held)
    }

    /// Bytes and alignment, laid out in the order of the fields.
    pub fn layout(&self, of: &Type) -> Told<(usize, usize)> {
        match of {
            Type::Plain(name) => {
                let known = PLAIN.iter().find(|(plain, _)| plain == name);
                let bytes = known.map_or(4, |(_, bytes)| *bytes);
                Ok((bytes, bytes))
            }
            Type::Array(inner, length) => {
                let (bytes, align) = self.layout(inner)?;
                Ok((bytes * length, align))
            }
            Type::Reference { inner, .. } if matches!(**inner, Type::Slice(_)) => Ok((16, 8)),
            Type::Reference { .. } => Ok((8, 8)),
            Type::Named(path) => {
                let is_enum = matches!(self.types[path].value, Definition::Enum(_));
                let (mut bytes, mut align) = (0, 1);
                for variant in 0..self.variants(path) {
                    let fields = self.fields(path, variant)?.into_iter().map(|(_, of)| of);
                    let (size, own) = self.laid_out(usize::from(is_enum), fields)?;
                    bytes = bytes.max(size);
                    align = align.max(own);
                }
                Ok((bytes.next_multiple_of(align), align))
            }
            Type::Perhaps(inner) => {
                let (bytes, align) = self.layout(inner)?;
                Ok((bytes + align, align))
            }
            Type::Tuple(parts) => self.laid_out(0, parts.iter().cloned()),
            Type::Unit | Type::Passed | Type::Slice(_) => Ok((0, 1)),
        }
    }

    /// Values one after another behind so many bytes.
    fn laid_out(&self, head: usize, parts: impl Iterator<Item = Type>) -> Told<(usize, usize)> {
        let (mut bytes, mut align) = (head, 1);
        for part in parts {
            let (size, own) = self.layout(&part)?;
            bytes = bytes.next_multiple_of(own) + size;
            align = align.max(own);
        }
        Ok((bytes.next_multiple_of(align), align))
    }
}

//! The bytes of an entry that is being written.

use crate::{
    attributes::{Angle, Style},
    build_error::{BuildError, Problem},
    ids::FamilyId,
    limits,
};

/// Refuses a count that is over its limit.
pub fn within(count: usize, limit: usize, field: &str) -> Result<(), BuildError> {
    if count <= limit {
        Ok(())
    } else {
        Err(BuildError::new(field, Problem::TooMany { limit }))
    }
}

/// The bytes of an entry that is being written, and its name for errors.
pub struct Entry<'a> {
    pub name: &'a str,
    pub bytes: Vec<u8>,
}

impl<'a> Entry<'a> {
    pub fn new(name: &'a str) -> Self {
        Self {
            name,
            bytes: Vec::new(),
        }
    }

    fn error<T>(&self, field: &str, problem: Problem) -> Result<T, BuildError> {
        Err(BuildError::new(format!("{}.{field}", self.name), problem))
    }

    pub fn zeros(&mut self, count: usize) {
        self.bytes.resize(self.bytes.len() + count, 0);
    }

    pub fn byte(&mut self, byte: u8) {
        self.bytes.push(byte);
    }

    pub fn half(&mut self, number: u16) {
        self.bytes.extend(number.to_be_bytes());
    }

    pub fn finite(&mut self, number: f32, field: &str) -> Result<(), BuildError> {
        if !number.is_finite() {
            return self.error(field, Problem::NotFinite);
        }
        self.bytes.extend(number.to_be_bytes());
        Ok(())
    }

    pub fn ratio(&mut self, width: f32) -> Result<(), BuildError> {
        if !(0.0..=limits::WIDTH).contains(&width) {
            return self.error("width", Problem::NotARatio);
        }
        self.bytes.extend(width.to_be_bytes());
        Ok(())
    }

    pub fn style(&mut self, style: Style) -> Result<(), BuildError> {
        let (kind, angle) = match style {
            Style::Normal => (0, 0.0),
            Style::Italic => (1, 0.0),
            Style::Oblique(Angle::Unstated) => (2, 0.0),
            Style::Oblique(Angle::Degrees(angle)) => (3, angle),
        };
        self.byte(kind);
        self.finite(angle, "style.angle")
    }

    /// A count in one byte.
    pub fn count(&mut self, count: usize, field: &str) -> Result<(), BuildError> {
        match u8::try_from(count) {
            Ok(count) => {
                self.byte(count);
                Ok(())
            }
            Err(_) => self.error(
                field,
                Problem::TooMany {
                    limit: limits::BYTE_COUNT,
                },
            ),
        }
    }

    /// A list of families after its count.
    pub fn list(&mut self, families: &[FamilyId], field: &str) -> Result<(), BuildError> {
        self.count(families.len(), field)?;
        for family in families {
            self.half(family.number());
        }
        Ok(())
    }
}

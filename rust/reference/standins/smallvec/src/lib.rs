//! Stand-in for `smallvec`: a plain vector with the calls that the original uses.

use std::{
    fmt,
    ops::{Deref, DerefMut},
};

/// What `SmallVec<[T; N]>` takes its items from.
pub trait Array {
    type Item;
}

impl<T, const N: usize> Array for [T; N] {
    type Item = T;
}

pub struct SmallVec<A: Array>(Vec<A::Item>);

impl<A: Array> SmallVec<A> {
    pub fn new() -> Self {
        Self(Vec::new())
    }

    pub fn with_capacity(count: usize) -> Self {
        Self(Vec::with_capacity(count))
    }

    pub fn push(&mut self, item: A::Item) {
        self.0.push(item);
    }

    pub fn clear(&mut self) {
        self.0.clear();
    }

    pub fn as_slice(&self) -> &[A::Item] {
        &self.0
    }

    /// Keeps, in order, the items that pass the test.
    pub fn retain(&mut self, test: impl FnMut(&mut A::Item) -> bool) {
        self.0.retain_mut(test);
    }

    pub fn extend_from_slice(&mut self, items: &[A::Item])
    where
        A::Item: Copy,
    {
        self.0.extend_from_slice(items);
    }
}

impl<A: Array> Default for SmallVec<A> {
    fn default() -> Self {
        Self::new()
    }
}

impl<A: Array> Clone for SmallVec<A>
where
    A::Item: Clone,
{
    fn clone(&self) -> Self {
        Self(self.0.clone())
    }
}

impl<A: Array> fmt::Debug for SmallVec<A>
where
    A::Item: fmt::Debug,
{
    fn fmt(&self, f: &mut fmt::Formatter<'_>) -> fmt::Result {
        self.0.fmt(f)
    }
}

impl<A: Array> Deref for SmallVec<A> {
    type Target = [A::Item];

    fn deref(&self) -> &[A::Item] {
        &self.0
    }
}

impl<A: Array> DerefMut for SmallVec<A> {
    fn deref_mut(&mut self) -> &mut [A::Item] {
        &mut self.0
    }
}

impl<A: Array> FromIterator<A::Item> for SmallVec<A> {
    fn from_iter<I: IntoIterator<Item = A::Item>>(items: I) -> Self {
        Self(items.into_iter().collect())
    }
}

impl<A: Array> Extend<A::Item> for SmallVec<A> {
    fn extend<I: IntoIterator<Item = A::Item>>(&mut self, items: I) {
        self.0.extend(items);
    }
}

#[cfg(test)]
mod tests {
    use super::*;

    #[test]
    fn retain_keeps_order() {
        let mut v: SmallVec<[u32; 2]> = (0..10).collect();
        v.retain(|x| *x % 3 == 0);
        assert_eq!(&v[..], &[0, 3, 6, 9]);
    }
}

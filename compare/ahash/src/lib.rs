//! The packaged ahash 0.7 with the one thing that the attached files need of a later version: a set from an array.
use std::collections::HashSet;
use std::hash::Hash;
use std::ops::{Deref, DerefMut};

pub use old::{AHashMap, RandomState};

#[derive(Clone, Debug)]
pub struct AHashSet<T>(HashSet<T, RandomState>);

impl<T> AHashSet<T> {
    pub fn new() -> Self {
        AHashSet(HashSet::with_hasher(RandomState::default()))
    }
}

impl<T> Default for AHashSet<T> {
    fn default() -> Self {
        AHashSet::new()
    }
}

impl<T> Deref for AHashSet<T> {
    type Target = HashSet<T, RandomState>;

    fn deref(&self) -> &Self::Target {
        &self.0
    }
}

impl<T> DerefMut for AHashSet<T> {
    fn deref_mut(&mut self) -> &mut Self::Target {
        &mut self.0
    }
}

impl<T: Eq + Hash> FromIterator<T> for AHashSet<T> {
    fn from_iter<I: IntoIterator<Item = T>>(items: I) -> Self {
        let mut set = AHashSet::new();
        set.0.extend(items);
        set
    }
}

impl<T: Eq + Hash, const N: usize> From<[T; N]> for AHashSet<T> {
    fn from(items: [T; N]) -> Self {
        items.into_iter().collect()
    }
}

impl<T> IntoIterator for AHashSet<T> {
    type Item = T;
    type IntoIter = std::collections::hash_set::IntoIter<T>;

    fn into_iter(self) -> Self::IntoIter {
        self.0.into_iter()
    }
}

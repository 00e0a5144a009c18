//! Std in place of the crates: hash maps, an ordered set, parallel iterators, logging.

use std::collections::hash_map::{DefaultHasher, Iter};
use std::collections::HashMap;
use std::hash::{BuildHasherDefault, Hash};

/// A fixed hasher, so that two runs of the oracle give the same bytes.
pub type FxHashMap<K, V> = HashMap<K, V, BuildHasherDefault<DefaultHasher>>;
pub type FxHashSet<K> = std::collections::HashSet<K, BuildHasherDefault<DefaultHasher>>;

/// A set that keeps the order of insertion.
#[derive(Default)]
pub struct FxIndexSet<T> {
    items: Vec<T>,
}

impl<T: PartialEq> FxIndexSet<T> {
    pub fn insert(&mut self, item: T) -> bool {
        let fresh = !self.contains(&item);
        if fresh {
            self.items.push(item);
        }
        fresh
    }

    pub fn contains(&self, item: &T) -> bool {
        self.items.contains(item)
    }

    pub fn iter(&self) -> std::slice::Iter<'_, T> {
        self.items.iter()
    }
}

pub trait ParSlice<T> {
    fn par_iter(&self) -> std::slice::Iter<'_, T>;
    fn par_sort(&mut self)
    where
        T: Ord;
}

impl<T> ParSlice<T> for [T] {
    fn par_iter(&self) -> std::slice::Iter<'_, T> {
        self.iter()
    }

    fn par_sort(&mut self)
    where
        T: Ord,
    {
        self.sort()
    }
}

pub trait ParMap<K, V> {
    fn par_iter(&self) -> Iter<'_, K, V>;
}

impl<K: Eq + Hash, V, S> ParMap<K, V> for HashMap<K, V, S> {
    fn par_iter(&self) -> Iter<'_, K, V> {
        self.iter()
    }
}

pub trait ParBridge: Iterator + Sized {
    fn par_bridge(self) -> Self {
        self
    }
}

impl<I: Iterator> ParBridge for I {}

/// Logging is nothing here; its arguments are not even looked at.
pub mod log {
    macro_rules! nothing {
        ($($anything:tt)*) => {
            ()
        };
    }
    pub(crate) use nothing as debug;
    pub(crate) use nothing as error;
}

//! A map.
#![forbid(unsafe_code)]
use super::base::{AllocError, Global};
use std::collections;
use std::hash::Hash;

/// A map of hashed keys.
pub struct HashMap<K, V>(collections::HashMap<K, V>);

impl<K: Hash + Eq, V> HashMap<K, V> {
    /// Returns no values, without allocating.
    pub fn new(_: Global) -> HashMap<K, V> {
        HashMap(collections::HashMap::new())
    }

    /// Puts a value, and returns the one that the key had.
    pub fn insert(&mut self, key: K, value: V) -> Result<Option<V>, AllocError> {
        self.0.try_reserve(1).map_err(|_| AllocError)?;
        Ok(self.0.insert(key, value))
    }

    /// Returns the value of a key, if it has one.
    pub fn get(&self, key: &K) -> Option<&V> {
        self.0.get(key)
    }
}

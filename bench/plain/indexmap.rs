//! A set that keeps the order of insertion.
#![allow(warnings)]
use shim::{AllocError, Global, Vec};
use std::collections::hash_map::DefaultHasher;
use std::hash::{Hash, Hasher};
/// The places of the keys by their digests.
pub struct IndexSet<T> { at: std::collections::HashMap<u64, std::vec::Vec<usize>>, pub keys: std::vec::Vec<T> }
fn digest<T: Hash>(x: &T) -> u64 { let mut h = DefaultHasher::new(); x.hash(&mut h); h.finish() }
impl<T: Hash + Eq> IndexSet<T> {
    pub fn new(_: Global) -> Self { IndexSet { at: Default::default(), keys: vec![] } }
    pub fn len(&self) -> usize { self.keys.len() }
    pub fn insert(&mut self, x: T) -> Result<bool, AllocError> {
        let places = self.at.entry(digest(&x)).or_default();
        if places.iter().any(|it| self.keys[*it] == x) { return Ok(false); }
        places.push(self.keys.len()); self.keys.push(x); Ok(true)
    }
    pub fn append(&mut self, other: &mut Self) -> Result<(), AllocError> {
        other.at.clear();
        for x in std::mem::take(&mut other.keys) { self.insert(x)?; }
        Ok(())
    }
    pub fn truncate(&mut self, count: usize) {
        self.keys.truncate(count);
        for places in self.at.values_mut() { places.retain(|it| *it < count); }
    }
}
impl<T> std::ops::Index<usize> for IndexSet<T> { type Output = T; fn index(&self, i: usize) -> &T { &self.keys[i] } }

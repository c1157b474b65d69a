//! What the crates use of Rattle's library, on Rust's.
#![allow(dead_code)]
use std::ops::{Deref, DerefMut};
#[derive(Clone, Copy, Debug)]
pub struct Global;
#[derive(Clone, Copy, Debug, PartialEq, Eq)]
pub struct AllocError;
pub struct AllocFailed<T>(pub T);
impl<T> std::fmt::Debug for AllocFailed<T> { fn fmt(&self, f: &mut std::fmt::Formatter<'_>) -> std::fmt::Result { write!(f, "AllocFailed") } }
impl<T> From<AllocFailed<T>> for AllocError { fn from(_: AllocFailed<T>) -> AllocError { AllocError } }
#[derive(Debug, Clone, PartialEq, Eq, Hash)]
pub struct Vec<T>(pub std::vec::Vec<T>);
impl<T> Deref for Vec<T> { type Target = std::vec::Vec<T>; #[inline(always)] fn deref(&self) -> &std::vec::Vec<T> { &self.0 } }
impl<T> DerefMut for Vec<T> { #[inline(always)] fn deref_mut(&mut self) -> &mut std::vec::Vec<T> { &mut self.0 } }
impl<T> Vec<T> {
    pub fn new(_: Global) -> Vec<T> { Vec(std::vec::Vec::new()) }
    pub fn with_capacity(_: Global, n: usize) -> Result<Vec<T>, AllocError> { Ok(Vec(std::vec::Vec::with_capacity(n))) }
    #[inline(always)] pub fn push(&mut self, x: T) -> Result<(), AllocFailed<T>> { self.0.push(x); Ok(()) }
    pub fn insert(&mut self, at: usize, x: T) -> Result<(), AllocFailed<T>> { self.0.insert(at, x); Ok(()) }
    pub fn reserve(&mut self, n: usize) -> Result<(), AllocError> { self.0.reserve(n); Ok(()) }
    pub fn from_slice(_: Global, s: &[T]) -> Result<Vec<T>, AllocError> where T: Clone { Ok(Vec(s.to_vec())) }
    pub fn extend_from_slice(&mut self, s: &[T]) -> Result<(), AllocError> where T: Clone { self.0.extend_from_slice(s); Ok(()) }
    pub fn resize(&mut self, n: usize, x: T) -> Result<(), AllocError> where T: Clone { self.0.resize(n, x); Ok(()) }
    pub fn try_push(&mut self, x: T) -> Result<(), AllocFailed<T>> { self.push(x) }
    #[inline(always)] pub fn into_std(self) -> std::vec::Vec<T> { self.0 }
}
impl<T> IntoIterator for Vec<T> { type Item = T; type IntoIter = std::vec::IntoIter<T>; fn into_iter(self) -> Self::IntoIter { self.0.into_iter() } }
impl<'a, T> IntoIterator for &'a Vec<T> { type Item = &'a T; type IntoIter = std::slice::Iter<'a, T>; fn into_iter(self) -> Self::IntoIter { self.0.iter() } }
pub fn filled<T: Clone>(_: Global, x: T, n: usize) -> Result<Vec<T>, AllocError> { Ok(Vec(vec![x; n])) }
pub fn listed<T>(_: Global, v: std::vec::Vec<T>) -> Result<Vec<T>, AllocError> { Ok(Vec(v)) }
pub trait Collect<T>: Iterator<Item = T> + Sized { fn collect_in(self, _: Global) -> Result<Vec<T>, AllocError> { Ok(Vec(self.collect())) } }
impl<T, I: Iterator<Item = T>> Collect<T> for I {}
pub fn boxed<T>(_: Global, x: T) -> Result<Box<T>, AllocError> { Ok(Box::new(x)) }
pub fn nearest_i64_to_f64(n: i64) -> f64 { n as f64 }
pub fn nearest_u64_to_f64(n: u64) -> f64 { n as f64 }
pub fn nearest_usize_to_f64(n: usize) -> f64 { n as f64 }
pub fn saturating_f64_to_i64(x: f64) -> i64 { x as i64 }
pub fn saturating_f64_to_u64(x: f64) -> u64 { x as u64 }
// the processor's time of this process, so that other work on the machine counts less
#[derive(Clone, Copy)]
pub struct Instant(u64);
#[repr(C)] struct Spec { s: i64, n: i64 }
unsafe extern "C" { fn clock_gettime(clock: i32, to: *mut Spec) -> i32; }
impl Instant {
    pub fn now() -> Instant { let mut t = Spec { s: 0, n: 0 }; unsafe { clock_gettime(2, &mut t); } Instant(t.s as u64 * 1_000_000_000 + t.n as u64) }
    pub fn elapsed(&self) -> std::time::Duration { std::time::Duration::from_nanos(Instant::now().0 - self.0) }
}

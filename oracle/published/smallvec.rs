//! Stand-in for the crate of that name: a short vector, kept as a plain one.
use std::ops::{Deref, DerefMut};

#[derive(Clone, PartialEq, Debug, Default)]
pub struct SmallVec<A: Array>(Vec<A::Item>)
where
    A::Item: Clone + PartialEq + std::fmt::Debug + Default;

pub trait Array {
    type Item;
}

impl<T, const N: usize> Array for [T; N] {
    type Item = T;
}

impl SmallVec<[f64; 32]> {
    pub fn new() -> Self {
        SmallVec(Vec::new())
    }
    pub fn filled(value: f64, length: usize) -> Self {
        SmallVec(vec![value; length])
    }
    pub fn truncate(&mut self, length: usize) {
        self.0.truncate(length)
    }
}

impl Deref for SmallVec<[f64; 32]> {
    type Target = [f64];
    fn deref(&self) -> &[f64] {
        &self.0
    }
}

impl DerefMut for SmallVec<[f64; 32]> {
    fn deref_mut(&mut self) -> &mut [f64] {
        &mut self.0
    }
}

macro_rules! filled {
    ($value:expr; $length:expr) => {
        $crate::smallvec::SmallVec::filled($value, $length)
    };
}
pub(crate) use filled as smallvec;

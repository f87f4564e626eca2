//! What Rattle's std has for memory, over Rust's own: each call that takes memory returns an error where there is none. The proved calls use
//! it, and so does the layer over them.

// Some of these have callers only among the proved tests.
#![allow(dead_code)]

use alloc::{string, vec};
use core::borrow::Borrow;
use core::fmt;
use core::mem;
use core::ops::{Deref, DerefMut};

/// The memory of the program.
#[derive(Clone, Copy)]
pub struct Global;

/// The error of a call for which there is not enough memory.
///
/// ```
/// use num_rational::{AllocError, BigFraction};
///
/// fn twice(x: &BigFraction) -> Result<BigFraction, AllocError> {
///     x.try_add(x)
/// }
///
/// assert_eq!(twice(&BigFraction::new(1, 2)).unwrap(), BigFraction::from(1));
/// assert_eq!(AllocError.to_string(), "memory allocation failed");
/// ```
#[derive(Clone, Copy, Debug, PartialEq, Eq, Hash)]
pub struct AllocError;

impl fmt::Display for AllocError {
    fn fmt(&self, f: &mut fmt::Formatter<'_>) -> fmt::Result {
        f.pad("memory allocation failed")
    }
}

#[cfg(feature = "std")]
impl std::error::Error for AllocError {}

/// A list in memory.
#[derive(PartialEq, Eq, PartialOrd, Ord)]
pub struct Vec<T>(vec::Vec<T>);

impl<T> Vec<T> {
    #[inline]
    pub fn new(_: Global) -> Vec<T> {
        Vec(vec::Vec::new())
    }

    #[inline]
    pub fn push(&mut self, item: T) -> Result<(), AllocError> {
        self.more(1)?;
        self.0.push(item);
        Ok(())
    }

    #[inline]
    pub fn pop(&mut self) -> Option<T> {
        self.0.pop()
    }

    #[inline]
    pub fn truncate(&mut self, count: usize) {
        self.0.truncate(count);
    }

    #[inline]
    pub fn as_slice(&self) -> &[T] {
        &self.0
    }

    /// Rust's own list, with the same memory.
    #[inline]
    pub fn into_std(self) -> vec::Vec<T> {
        self.0
    }

    /// Makes room for so many more items.
    #[inline]
    fn more(&mut self, count: usize) -> Result<(), AllocError> {
        self.0.try_reserve(count).map_err(|_| AllocError)
    }
}

impl<T: Copy> Vec<T> {
    #[inline]
    pub fn with_capacity(_: Global, count: usize) -> Result<Vec<T>, AllocError> {
        let mut items = vec::Vec::new();
        items.try_reserve_exact(count).map_err(|_| AllocError)?;
        Ok(Vec(items))
    }

    #[inline]
    pub fn from_slice(alloc: Global, items: &[T]) -> Result<Vec<T>, AllocError> {
        let mut copy = Vec::with_capacity(alloc, items.len())?;
        copy.0.extend_from_slice(items);
        Ok(copy)
    }

    #[inline]
    pub fn extend_from_slice(&mut self, items: &[T]) -> Result<(), AllocError> {
        self.more(items.len())?;
        self.0.extend_from_slice(items);
        Ok(())
    }

    #[inline]
    pub fn resize(&mut self, count: usize, item: T) -> Result<(), AllocError> {
        self.more(count.saturating_sub(self.0.len()))?;
        self.0.resize(count, item);
        Ok(())
    }

    /// Gives back the memory that the list does not need, and keeps it if there is none for a copy: the call of Rust's own list would end the program.
    #[inline]
    pub fn shrink_to_fit(&mut self) {
        let mut copy = vec::Vec::new();
        if copy.try_reserve_exact(self.0.len()).is_ok() {
            copy.extend_from_slice(&self.0);
            self.0 = copy;
        }
    }

    #[inline]
    pub fn clear(&mut self) {
        self.0.clear();
    }

    #[inline]
    pub fn as_mut_slice(&mut self) -> &mut [T] {
        &mut self.0
    }
}

impl<T> Deref for Vec<T> {
    type Target = [T];

    #[inline]
    fn deref(&self) -> &[T] {
        &self.0
    }
}

impl<T> DerefMut for Vec<T> {
    #[inline]
    fn deref_mut(&mut self) -> &mut [T] {
        &mut self.0
    }
}

impl<T> Borrow<[T]> for Vec<T> {
    #[inline]
    fn borrow(&self) -> &[T] {
        &self.0
    }
}

/// Values by key. It is a list in the order of the keys, since Rust's own map ends the program where there is no memory.
pub struct BTreeMap<K, V>(vec::Vec<(K, V)>);

impl<K: Ord, V> BTreeMap<K, V> {
    #[inline]
    pub fn new(_: Global) -> BTreeMap<K, V> {
        BTreeMap(vec::Vec::new())
    }

    pub fn get<Q: Ord + ?Sized>(&self, key: &Q) -> Option<&V>
    where
        K: Borrow<Q>,
    {
        self.place(key).ok().map(|at| &self.0[at].1)
    }

    pub fn get_mut<Q: Ord + ?Sized>(&mut self, key: &Q) -> Option<&mut V>
    where
        K: Borrow<Q>,
    {
        self.place(key).ok().map(|at| &mut self.0[at].1)
    }

    /// Gives a value a key, and returns the value that had it. If there is no memory, the map stays as it is.
    pub fn insert(&mut self, key: K, value: V) -> Result<Option<V>, AllocError> {
        match self.place(&key) {
            Ok(at) => Ok(Some(mem::replace(&mut self.0[at].1, value))),
            Err(at) => {
                self.0.try_reserve(1).map_err(|_| AllocError)?;
                self.0.insert(at, (key, value));
                Ok(None)
            }
        }
    }

    /// The place of the key, or the one that it gets.
    fn place<Q: Ord + ?Sized>(&self, key: &Q) -> Result<usize, usize>
    where
        K: Borrow<Q>,
    {
        self.0.binary_search_by(|(k, _)| k.borrow().cmp(key))
    }
}

/// A text in memory.
pub struct String(string::String);

impl String {
    #[inline]
    pub fn new(_: Global) -> String {
        String(string::String::new())
    }

    #[inline]
    pub fn from_str(alloc: Global, text: &str) -> Result<String, AllocError> {
        let mut copy = String::new(alloc);
        copy.push_str(text)?;
        Ok(copy)
    }

    #[inline]
    pub fn push_str(&mut self, text: &str) -> Result<(), AllocError> {
        self.0.try_reserve(text.len()).map_err(|_| AllocError)?;
        self.0.push_str(text);
        Ok(())
    }

    #[inline]
    pub fn as_str(&self) -> &str {
        &self.0
    }

    /// The bytes of the text, with the same memory.
    #[inline]
    pub fn into_bytes(self) -> Vec<u8> {
        Vec(self.0.into_bytes())
    }

    /// Rust's own text, with the same memory.
    #[inline]
    pub fn into_std(self) -> string::String {
        self.0
    }
}

impl Deref for String {
    type Target = str;

    #[inline]
    fn deref(&self) -> &str {
        &self.0
    }
}

#[cfg(test)]
mod tests {
    use super::{BTreeMap, Global};
    use alloc::collections;

    #[test]
    fn a_map_is_as_the_one_of_std() {
        let (mut ours, mut theirs) = (BTreeMap::new(Global), collections::BTreeMap::new());
        for i in 0..2000u32 {
            let key = i.wrapping_mul(0x9e37_79b9) >> 22;
            assert_eq!(ours.get(&key), theirs.get(&key));
            assert_eq!(ours.insert(key, i), Ok(theirs.insert(key, i)));
        }
    }
}

//! Stand-in for the crate `heapless`: the calls that the five files of the Rust use, over plain arrays. Past the capacity
//! `push` and `extend_from_slice` give back what they were handed, and `extend` and `collect` panic, as there.
use std::fmt;
use std::mem::MaybeUninit;
use std::ops::{Deref, DerefMut};

/// Elements are plain data here (`Copy`), so nothing is dropped.
pub struct Vec<T: Copy, const N: usize> {
    items: [MaybeUninit<T>; N],
    len: usize,
}

impl<T: Copy, const N: usize> Vec<T, N> {
    pub const fn new() -> Self {
        Self { items: [MaybeUninit::uninit(); N], len: 0 }
    }

    pub fn push(&mut self, item: T) -> Result<(), T> {
        if self.len == N {
            return Err(item);
        }
        self.items[self.len] = MaybeUninit::new(item);
        self.len += 1;
        Ok(())
    }

    pub fn extend_from_slice(&mut self, items: &[T]) -> Result<(), ()> {
        if items.len() > N - self.len {
            return Err(());
        }
        for &item in items {
            let _ = self.push(item);
        }
        Ok(())
    }
}

impl<T: Copy, const N: usize> Deref for Vec<T, N> {
    type Target = [T];
    fn deref(&self) -> &[T] {
        // SAFETY: the first `len` items are written, and `MaybeUninit<T>` is laid out as `T`.
        unsafe { std::slice::from_raw_parts(self.items.as_ptr().cast(), self.len) }
    }
}

impl<T: Copy, const N: usize> DerefMut for Vec<T, N> {
    fn deref_mut(&mut self) -> &mut [T] {
        // SAFETY: as in `deref`.
        unsafe { std::slice::from_raw_parts_mut(self.items.as_mut_ptr().cast(), self.len) }
    }
}

impl<T: Copy, const N: usize> Extend<T> for Vec<T, N> {
    fn extend<I: IntoIterator<Item = T>>(&mut self, items: I) {
        for item in items {
            assert!(self.push(item).is_ok(), "more items than the capacity");
        }
    }
}

impl<T: Copy, const N: usize> FromIterator<T> for Vec<T, N> {
    fn from_iter<I: IntoIterator<Item = T>>(items: I) -> Self {
        let mut vec = Self::new();
        vec.extend(items);
        vec
    }
}

impl<T: Copy, const N: usize> IntoIterator for Vec<T, N> {
    type Item = T;
    type IntoIter = std::iter::Map<std::iter::Take<std::array::IntoIter<MaybeUninit<T>, N>>, fn(MaybeUninit<T>) -> T>;
    fn into_iter(self) -> Self::IntoIter {
        // SAFETY: `take` stops at `len`, below which every item is written.
        self.items.into_iter().take(self.len).map(|item| unsafe { item.assume_init() })
    }
}

impl<'a, T: Copy, const N: usize> IntoIterator for &'a Vec<T, N> {
    type Item = &'a T;
    type IntoIter = std::slice::Iter<'a, T>;
    fn into_iter(self) -> Self::IntoIter {
        self.iter()
    }
}

pub struct String<const N: usize> {
    bytes: Vec<u8, N>,
}

impl<const N: usize> String<N> {
    pub const fn new() -> Self {
        Self { bytes: Vec::new() }
    }

    pub fn as_str(&self) -> &str {
        std::str::from_utf8(&self.bytes).unwrap_or("")
    }
}

impl<const N: usize> Deref for String<N> {
    type Target = str;
    fn deref(&self) -> &str {
        self.as_str()
    }
}

impl<const N: usize> fmt::Write for String<N> {
    fn write_str(&mut self, text: &str) -> fmt::Result {
        self.bytes.extend_from_slice(text.as_bytes()).map_err(|()| fmt::Error)
    }
}

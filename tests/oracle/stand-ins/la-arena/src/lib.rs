//! Stand-in for la-arena: a `Vec` with typed 32-bit indices.

use std::cmp::Ordering;
use std::fmt;
use std::hash::{Hash, Hasher};
use std::marker::PhantomData;
use std::ops::{Index, IndexMut};

#[derive(Clone, Copy, PartialEq, Eq, Hash, PartialOrd, Ord, Debug)]
pub struct RawIdx(u32);

impl RawIdx {
    pub const fn from_u32(value: u32) -> Self {
        RawIdx(value)
    }

    pub const fn into_u32(self) -> u32 {
        self.0
    }
}

impl From<u32> for RawIdx {
    fn from(value: u32) -> Self {
        RawIdx(value)
    }
}

/// The index of a `T` in its arena.
pub struct Idx<T> {
    raw: RawIdx,
    _type: PhantomData<fn() -> T>,
}

impl<T> Idx<T> {
    pub const fn from_raw(raw: RawIdx) -> Self {
        Idx {
            raw,
            _type: PhantomData,
        }
    }

    pub const fn into_raw(self) -> RawIdx {
        self.raw
    }
}

// Written out, since a derive would ask the same of `T`.

impl<T> Clone for Idx<T> {
    fn clone(&self) -> Self {
        *self
    }
}

impl<T> Copy for Idx<T> {}

impl<T> PartialEq for Idx<T> {
    fn eq(&self, other: &Self) -> bool {
        self.raw == other.raw
    }
}

impl<T> Eq for Idx<T> {}

impl<T> PartialOrd for Idx<T> {
    fn partial_cmp(&self, other: &Self) -> Option<Ordering> {
        Some(self.cmp(other))
    }
}

impl<T> Ord for Idx<T> {
    fn cmp(&self, other: &Self) -> Ordering {
        self.raw.cmp(&other.raw)
    }
}

impl<T> Hash for Idx<T> {
    fn hash<H: Hasher>(&self, state: &mut H) {
        self.raw.hash(state)
    }
}

impl<T> fmt::Debug for Idx<T> {
    fn fmt(&self, f: &mut fmt::Formatter<'_>) -> fmt::Result {
        write!(f, "Idx({})", self.raw.0)
    }
}

#[derive(Clone, PartialEq, Eq, Hash, Debug)]
pub struct Arena<T> {
    data: Vec<T>,
}

impl<T> Default for Arena<T> {
    fn default() -> Self {
        Arena { data: Vec::new() }
    }
}

impl<T> Arena<T> {
    pub const fn new() -> Self {
        Arena { data: Vec::new() }
    }

    pub fn len(&self) -> usize {
        self.data.len()
    }

    pub fn is_empty(&self) -> bool {
        self.data.is_empty()
    }

    pub fn alloc(&mut self, value: T) -> Idx<T> {
        let index = index_at(self.data.len());
        self.data.push(value);
        index
    }

    pub fn iter(
        &self,
    ) -> impl DoubleEndedIterator<Item = (Idx<T>, &T)> + ExactSizeIterator + Clone {
        self.data
            .iter()
            .enumerate()
            .map(|(position, value)| (index_at(position), value))
    }
}

fn index_at<T>(position: usize) -> Idx<T> {
    Idx::from_raw(RawIdx(position as u32))
}

impl<T> Index<Idx<T>> for Arena<T> {
    type Output = T;

    fn index(&self, index: Idx<T>) -> &T {
        &self.data[index.raw.0 as usize]
    }
}

impl<T> IndexMut<Idx<T>> for Arena<T> {
    fn index_mut(&mut self, index: Idx<T>) -> &mut T {
        &mut self.data[index.raw.0 as usize]
    }
}

//! Shim: a vector of at most `N` items.

use core::ops::{Deref, DerefMut};

#[derive(Debug, Clone, PartialEq, Eq)]
pub(crate) struct BoundedVec<T, const N: usize> {
    items: std::vec::Vec<T>,
}

impl<T, const N: usize> Default for BoundedVec<T, N> {
    fn default() -> Self {
        Self::new()
    }
}

impl<T, const N: usize> BoundedVec<T, N> {
    pub(crate) fn new() -> Self {
        Self {
            items: std::vec::Vec::with_capacity(N),
        }
    }

    /// Append, or hand the item back if there is no room.
    pub(crate) fn push(&mut self, item: T) -> Result<(), T> {
        if self.items.len() >= N {
            return Err(item);
        }
        self.items.push(item);
        Ok(())
    }

    /// Take out an item; later ones move down.
    pub(crate) fn remove(&mut self, index: usize) -> T {
        self.items.remove(index)
    }

    /// Take out an item; the last one moves into its place.
    pub(crate) fn swap_remove(&mut self, index: usize) -> T {
        self.items.swap_remove(index)
    }

    /// Keep what `f` says, in order. What goes is dropped in order.
    pub(crate) fn retain(&mut self, f: impl FnMut(&T) -> bool) {
        self.items.retain(f)
    }

    pub(crate) fn clear(&mut self) {
        self.items.clear()
    }
}

impl<T, const N: usize> Deref for BoundedVec<T, N> {
    type Target = [T];
    fn deref(&self) -> &[T] {
        &self.items
    }
}

impl<T, const N: usize> DerefMut for BoundedVec<T, N> {
    fn deref_mut(&mut self) -> &mut [T] {
        &mut self.items
    }
}

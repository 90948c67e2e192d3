//! Shim: a vector of at most `N` items, kept inline, as the real storage is without the feature `alloc`.

use core::mem::MaybeUninit;
use core::ops::{Deref, DerefMut};

pub(crate) struct BoundedVec<T, const N: usize> {
    items: [MaybeUninit<T>; N],
    len: usize,
}

impl<T, const N: usize> Default for BoundedVec<T, N> {
    fn default() -> Self {
        Self::new()
    }
}

impl<T: core::fmt::Debug, const N: usize> core::fmt::Debug for BoundedVec<T, N> {
    fn fmt(&self, f: &mut core::fmt::Formatter<'_>) -> core::fmt::Result {
        (**self).fmt(f)
    }
}

impl<T: PartialEq, const N: usize> PartialEq for BoundedVec<T, N> {
    fn eq(&self, other: &Self) -> bool {
        **self == **other
    }
}

impl<T, const N: usize> BoundedVec<T, N> {
    pub(crate) fn new() -> Self {
        Self {
            items: [const { MaybeUninit::uninit() }; N],
            len: 0,
        }
    }

    /// Append, or hand the item back if there is no room.
    pub(crate) fn push(&mut self, item: T) -> Result<(), T> {
        if self.len >= N {
            return Err(item);
        }
        self.items[self.len].write(item);
        self.len += 1;
        Ok(())
    }

    /// Take out an item; later ones move down.
    pub(crate) fn remove(&mut self, index: usize) -> T {
        assert!(index < self.len);
        unsafe {
            let at = self.as_mut_ptr().add(index);
            let item = at.read();
            at.copy_from(at.add(1), self.len - index - 1);
            self.len -= 1;
            item
        }
    }

    /// Take out an item; the last one moves into its place.
    pub(crate) fn swap_remove(&mut self, index: usize) -> T {
        assert!(index < self.len);
        unsafe {
            let first = self.as_mut_ptr();
            let item = first.add(index).read();
            self.len -= 1;
            first.add(index).copy_from(first.add(self.len), 1);
            item
        }
    }

    /// Keep what `f` says, in order. What goes is dropped in order.
    pub(crate) fn retain(&mut self, mut f: impl FnMut(&T) -> bool) {
        let n = core::mem::replace(&mut self.len, 0);
        let first = self.items.as_mut_ptr().cast::<T>();
        let mut kept = 0;
        for i in 0..n {
            unsafe {
                let at = first.add(i);
                if f(&*at) {
                    if kept != i {
                        first.add(kept).copy_from_nonoverlapping(at, 1);
                    }
                    kept += 1;
                } else {
                    at.drop_in_place();
                }
            }
        }
        self.len = kept;
    }

    pub(crate) fn clear(&mut self) {
        self.retain(|_| false)
    }
}

impl<T, const N: usize> Drop for BoundedVec<T, N> {
    fn drop(&mut self) {
        self.clear()
    }
}

impl<T, const N: usize> Deref for BoundedVec<T, N> {
    type Target = [T];
    fn deref(&self) -> &[T] {
        unsafe { core::slice::from_raw_parts(self.items.as_ptr().cast(), self.len) }
    }
}

impl<T, const N: usize> DerefMut for BoundedVec<T, N> {
    fn deref_mut(&mut self) -> &mut [T] {
        unsafe { core::slice::from_raw_parts_mut(self.items.as_mut_ptr().cast(), self.len) }
    }
}

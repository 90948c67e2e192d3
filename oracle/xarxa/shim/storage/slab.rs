//! Shim: the interfaces, in places 0 to `N` - 1.

pub(crate) struct Slab<T, const N: usize> {
    pub(crate) items: std::vec::Vec<T>,
}

impl<T, const N: usize> Slab<T, N> {
    pub(crate) fn get(&self, index: usize) -> &T {
        &self.items[index]
    }

    pub(crate) fn get_mut(&mut self, index: usize) -> &mut T {
        &mut self.items[index]
    }

    pub(crate) fn next_occupied(&self, from: usize) -> Option<usize> {
        if from < self.items.len() { Some(from) } else { None }
    }
}

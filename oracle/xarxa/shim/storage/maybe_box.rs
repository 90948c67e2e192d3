//! Shim: what the user gives the stack, lent or boxed.

use core::ops::{Deref, DerefMut};

pub(crate) enum MaybeBox<'a, T: ?Sized> {
    Lent(&'a mut T),
    Boxed(Box<T>),
}

impl<T: ?Sized> Deref for MaybeBox<'_, T> {
    type Target = T;
    fn deref(&self) -> &T {
        match self {
            MaybeBox::Lent(t) => t,
            MaybeBox::Boxed(t) => t,
        }
    }
}

impl<T: ?Sized> DerefMut for MaybeBox<'_, T> {
    fn deref_mut(&mut self) -> &mut T {
        match self {
            MaybeBox::Lent(t) => t,
            MaybeBox::Boxed(t) => t,
        }
    }
}

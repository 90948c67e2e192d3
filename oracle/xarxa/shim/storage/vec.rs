//! Shim: at most `N` items, as without the `alloc` feature.

pub(crate) use super::bounded_vec::BoundedVec as Vec;

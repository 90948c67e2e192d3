//! Shim: named by `storage/mod.rs`, used by nothing here.

pub(crate) struct Assembler;

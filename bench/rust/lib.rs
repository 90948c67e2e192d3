//! The real files of embassy-rs/xarxa, laid out by the oracle's build script, with the benchmark beside them.

#![allow(dead_code, unexpected_cfgs, unused_imports, unused_macros)]

include!(concat!(env!("OUT_DIR"), "/root.rs"));

// As in the real `lib.rs`.
pub use neighbor::{Neighbor, NeighborCache, NeighborState};
pub use stack::Stack;

pub mod bench;

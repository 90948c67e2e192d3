//! The real files of embassy-rs/xarxa, compiled with the shims in `shim/` around them.
//!
//! `build.rs` lays both out; `world.rs` is the only way in for the host programs.

#![allow(dead_code, unexpected_cfgs, unused_imports, unused_macros)]

include!(concat!(env!("OUT_DIR"), "/root.rs"));

// As in the real `lib.rs`.
pub use neighbor::{Neighbor, NeighborCache, NeighborState};
pub use stack::Stack;

pub mod world;

/// The real files compiled in: name, lines, hash.
pub const SOURCES: &str = include_str!(concat!(env!("OUT_DIR"), "/sources.txt"));

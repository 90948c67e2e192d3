//! The host side: everything that document 01 asks for and the Rust does not have (the event format, refusals by number,
//! 64-bit times) around the real code, and the tools that use it.

pub mod calls;
pub mod counts;
pub mod events;
pub mod folder;
pub mod generate;
pub mod modelled;
pub mod orders;
pub mod range;
pub mod real;
pub mod scenes;
pub mod shrink;
pub mod text;
pub mod turns;

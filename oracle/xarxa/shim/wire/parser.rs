//! Shim: addresses from text, used by nothing here.

//! Shim of `src/pool.rs`: a pool of packet buffers that is either full or empty.

use crate::driver::PacketBuf;

/// As `AddIfaceError::BufferTooSmall` has it: 114 bytes after an Ethernet header.
pub(crate) const MIN_BUF_CAPACITY: usize = 128;

pub struct Pool {
    pub(crate) empty: bool,
}

impl Pool {
    pub(crate) fn alloc(&mut self) -> Option<PacketBuf> {
        if self.empty { None } else { Some(PacketBuf::empty()) }
    }
}

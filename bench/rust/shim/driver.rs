//! Shim of the crate `xarxa_driver`: the types that the real files name. Nothing here uses the heap.

use core::ops::{Deref, DerefMut};

#[derive(Debug, Clone, Copy, PartialEq, Eq)]
pub enum LinkState {
    Up,
    Down,
}

#[derive(Debug, Clone, Copy, PartialEq, Eq)]
pub enum Medium {
    Ethernet,
    Ip,
    Ieee802154,
}

#[derive(Debug, Clone, Copy, PartialEq, Eq)]
pub enum HardwareAddress {
    Ethernet([u8; 6]),
    Ip,
    Ieee802154([u8; 8]),
}

/// Whether the device computes (tx) or verifies (rx) a checksum itself: here it never does.
#[derive(Debug, Clone, Copy, Default)]
pub struct Offload {
    pub tx: bool,
    pub rx: bool,
}

#[derive(Debug, Clone, Copy, Default)]
pub struct ChecksumCapabilities {
    pub icmpv6: Offload,
}

#[derive(Debug, Clone)]
pub struct Capabilities {
    pub max_transmission_unit: usize,
    pub tx_headroom: usize,
    pub checksum: ChecksumCapabilities,
}

pub trait Driver {
    fn link_state(&mut self) -> LinkState;
    fn can_transmit(&mut self) -> bool;
    fn set_multicast_filter(&mut self, addrs: &[[u8; 6]]);
}

/// The handles that were dropped, as a host would be told of them.
static mut DROPPED: ([u32; 8], usize) = ([0; 8], 0);

/// The bytes of the one message buffer.
static mut BYTES: [u8; 128] = [0xa5; 128];

const NO_HANDLE: u32 = u32::MAX;

/// How many packets were dropped since the last call.
pub fn take_dropped() -> usize {
    unsafe { core::mem::take(&mut *(&raw mut DROPPED.1)) }
}

/// A packet buffer: its place in a pool. `handle` is what a waiting packet is known by; its drop is noted.
#[derive(Debug)]
pub struct PacketBuf {
    handle: u32,
    len: u32,
}

impl PacketBuf {
    /// A buffer for a message.
    pub fn empty() -> Self {
        PacketBuf {
            handle: NO_HANDLE,
            len: 0,
        }
    }

    /// A packet of which only the handle is of interest.
    pub fn with_handle(handle: u32) -> Self {
        PacketBuf { handle, len: 0 }
    }

    pub fn handle(&self) -> Option<u32> {
        Some(self.handle)
    }

    /// Take the packet apart; this is no drop.
    pub fn into_handle(self) -> u32 {
        let handle = self.handle;
        core::mem::forget(self);
        handle
    }

    /// Room in front of the message, for headers: left behind.
    pub fn reserve(&mut self, _headroom: usize) {}

    pub fn set_len(&mut self, len: usize) {
        assert!(len <= 128);
        self.len = len as u32;
    }
}

impl Drop for PacketBuf {
    fn drop(&mut self) {
        if self.handle != NO_HANDLE {
            unsafe {
                let (slots, len) = &mut *(&raw mut DROPPED);
                slots[*len % 8] = self.handle;
                *len += 1;
            }
        }
    }
}

impl Deref for PacketBuf {
    type Target = [u8];
    fn deref(&self) -> &[u8] {
        unsafe { core::slice::from_raw_parts((&raw const BYTES).cast(), self.len as usize) }
    }
}

impl DerefMut for PacketBuf {
    fn deref_mut(&mut self) -> &mut [u8] {
        unsafe { core::slice::from_raw_parts_mut((&raw mut BYTES).cast(), self.len as usize) }
    }
}

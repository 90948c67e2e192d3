//! Shim of the crate `xarxa_driver`: the types that the real files name.

use core::cell::RefCell;
use core::ops::{Deref, DerefMut};

#[derive(Debug, Clone, Copy, PartialEq, Eq)]
pub enum LinkState {
    Up,
    Down,
}

#[derive(Debug, Clone, Copy, PartialEq, Eq)]
pub enum Medium {
    Ethernet,
    Ip,
    Ieee802154,
}

#[derive(Debug, Clone, Copy, PartialEq, Eq)]
pub enum HardwareAddress {
    Ethernet([u8; 6]),
    Ip,
    Ieee802154([u8; 8]),
}

/// Whether the device computes (tx) or verifies (rx) a checksum itself: here it never does.
#[derive(Debug, Clone, Copy, Default)]
pub struct Offload {
    pub tx: bool,
    pub rx: bool,
}

#[derive(Debug, Clone, Copy, Default)]
pub struct ChecksumCapabilities {
    pub icmpv6: Offload,
}

#[derive(Debug, Clone)]
pub struct Capabilities {
    pub max_transmission_unit: usize,
    pub tx_headroom: usize,
    pub checksum: ChecksumCapabilities,
}

pub trait Driver {
    fn link_state(&mut self) -> LinkState;
    fn can_transmit(&mut self) -> bool;
    fn set_multicast_filter(&mut self, addrs: &[[u8; 6]]);
}

thread_local! {
    static DROPPED: RefCell<Vec<u32>> = const { RefCell::new(Vec::new()) };
}

/// The handles of the packets dropped since the last call, in the order in which they were dropped.
pub fn take_dropped() -> Vec<u32> {
    DROPPED.with(|d| core::mem::take(&mut *d.borrow_mut()))
}

/// A packet buffer. `handle` is what a waiting packet is known by; its drop is noted.
#[derive(Debug)]
pub struct PacketBuf {
    bytes: Vec<u8>,
    handle: Option<u32>,
}

impl PacketBuf {
    /// A buffer for a message. Fresh bytes are not zero, so that one left unwritten shows.
    pub fn empty() -> Self {
        PacketBuf {
            bytes: Vec::new(),
            handle: None,
        }
    }

    /// A packet of which only the handle is of interest.
    pub fn with_handle(handle: u32) -> Self {
        PacketBuf {
            bytes: Vec::new(),
            handle: Some(handle),
        }
    }

    pub fn handle(&self) -> Option<u32> {
        self.handle
    }

    /// Take the packet apart; this is no drop.
    pub fn into_handle(mut self) -> u32 {
        self.handle.take().unwrap()
    }

    /// Room in front of the message, for headers: left behind.
    pub fn reserve(&mut self, _headroom: usize) {}

    pub fn set_len(&mut self, len: usize) {
        self.bytes.resize(len, 0xa5);
    }
}

impl Drop for PacketBuf {
    fn drop(&mut self) {
        if let Some(handle) = self.handle {
            DROPPED.with(|d| d.borrow_mut().push(handle));
        }
    }
}

impl Deref for PacketBuf {
    type Target = [u8];
    fn deref(&self) -> &[u8] {
        &self.bytes
    }
}

impl DerefMut for PacketBuf {
    fn deref_mut(&mut self) -> &mut [u8] {
        &mut self.bytes
    }
}

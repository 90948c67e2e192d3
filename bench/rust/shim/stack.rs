//! Shim of `src/stack.rs`: the state that interfaces share, and the few functions that the real files call in it.

use crate::config::IFACE_COUNT;
use crate::driver::PacketBuf;
use crate::iface::{Iface, IfaceHandle, IfaceState};
use crate::neighbor::{NeighborCache, PendingQueue};
use crate::pool::Pool;
use crate::route::Routes;
use crate::storage::Slab;
use crate::time::Instant;
use crate::wire::{HardwareAddress, IpAddr, Ipv6Addr, NdiscOption, NdiscOptionType};

pub(crate) enum Blocked {
    DeviceBusy,
    NoBuffer,
}

/// Which interface a socket is bound to; only `Routes::lookup`, which nothing here calls, names it.
#[derive(Clone, Copy)]
pub(crate) enum IfaceBinding {
    Any,
    Iface(IfaceHandle),
}

impl IfaceBinding {
    pub(crate) fn iface(&self) -> Option<IfaceHandle> {
        match self {
            IfaceBinding::Any => None,
            IfaceBinding::Iface(handle) => Some(*handle),
        }
    }
}

pub struct Stack<'d> {
    pub(crate) inner: StackInner,
    pub(crate) ifaces: Slab<IfaceState<'d>, IFACE_COUNT>,
}

impl<'d> Stack<'d> {
    pub fn iface(&mut self, handle: IfaceHandle) -> Iface<'_, 'd> {
        Iface {
            inner: &mut self.inner,
            ifaces: &mut self.ifaces,
            index: handle.index(),
        }
    }
}

pub(crate) struct StackInner {
    pub(crate) pool: Pool,
    pub(crate) routes: Routes,
    pub(crate) neighbor_cache: NeighborCache,
    pub(crate) pending: PendingQueue,
    /// The checksum of what was transmitted last.
    pub(crate) sent: u64,
}

impl StackInner {
    /// An advertisement's type 1 option: document 01's step 5.
    pub(crate) fn fill_neighbor(
        &mut self,
        iface: &mut IfaceState<'_>,
        addr: IpAddr,
        hardware_addr: HardwareAddress,
        now: Instant,
    ) {
        self.neighbor_cache.fill((iface.handle, addr), hardware_addr, now);
    }

    /// Addresses went: the interface's neighbours and waiting packets go.
    pub(crate) fn purge_iface_link_state(&mut self, handle: IfaceHandle) {
        self.neighbor_cache.clear_iface(handle);
        self.pending.purge_iface(handle);
    }

    /// Headers and the device are left behind.
    pub(crate) fn transmit_ndisc(
        &mut self,
        _iface: &mut IfaceState<'_>,
        buf: PacketBuf,
        _src_addr: Ipv6Addr,
        _dst_addr: Ipv6Addr,
    ) {
        self.sent = u64::from(buf[2]) * 256 + u64::from(buf[3]);
    }
}

/// The length of a link-layer address option: whole units of 8 bytes.
pub(crate) fn lladdr_option_len(hardware_addr: HardwareAddress) -> usize {
    (2 + hardware_addr.as_bytes().len()).div_ceil(8) * 8
}

/// Write a link-layer address option, with the real setters.
pub(crate) fn write_lladdr_option(buf: &mut [u8], option_type: NdiscOptionType, hardware_addr: HardwareAddress) {
    let len = lladdr_option_len(hardware_addr);
    buf[..len].fill(0);
    let mut opt = NdiscOption::new_unchecked(buf);
    opt.set_option_type(option_type);
    opt.set_data_len((len / 8) as u8);
    opt.set_link_layer_addr(hardware_addr.into());
}

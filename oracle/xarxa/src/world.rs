//! Four interfaces with their shared tables, driven call by call. Every function here does nothing but carry plain values
//! to the real code and back; what the real code asserts of its input (unicast addresses) is for the caller to check.

use std::cell::Cell;
use std::panic::{AssertUnwindSafe, catch_unwind};

use crate::driver::{self, Capabilities, ChecksumCapabilities, Driver, LinkState, PacketBuf};
use crate::iface::slaac::{ProbePhase, SlaacConfig, probe_form};
use crate::iface::{AddrOrigin, IfaceAddr, IfaceHandle, IfaceState, Medium, Preferred};
use crate::neighbor::{Answer, NeighborCache, PendingQueue, ProbeEvent, ProbeState};
use crate::pool::Pool;
pub use crate::route::RouteError;
use crate::route::{Route, RouteOrigin, Routes};
use crate::stack::{Stack, StackInner};
use crate::storage::{MaybeBox, Slab, Vec as StoreVec};
use crate::time::{Clock, Duration, Instant};
use crate::wire::{
    EthernetAddress, HardwareAddress, IPV6_LINK_LOCAL_ALL_ROUTERS, Icmpv6Message, Icmpv6Packet, IpAddr, IpCidr,
    IpProtocol, Ipv6Addr, Ipv6AddrExt, Ipv6Cidr, NdiscOption, NdiscOptionType, NdiscPrefixInfoFlags,
    NdiscRouterFlags, RawHardwareAddress, checksum,
};

pub type Addr = [u8; 16];
pub type Mac = [u8; 6];

/// Interfaces of a world.
pub const IFACES: usize = 4;

#[derive(Debug, Clone, Copy, PartialEq, Eq)]
pub enum Lookup {
    Found(Mac),
    Pending,
    NotFound,
}

#[derive(Debug, Clone, Copy, PartialEq, Eq)]
pub enum Event {
    Retransmit(Addr),
    Failed(Addr),
}

/// What a sweep came to.
#[derive(Debug, Clone, PartialEq, Eq)]
pub struct Swept {
    pub events: Vec<Event>,
    /// The clock's deadline afterwards.
    pub deadline: Option<u32>,
    /// The entries that the calls for events looked at.
    pub looked: usize,
    /// The calls for events, with the last, which found none.
    pub calls: usize,
}

#[derive(Debug, Clone, Copy, PartialEq, Eq)]
pub enum State {
    Started,
    /// Probes, due.
    Incomplete(u8, u32),
    /// Hardware address, expiry.
    Reachable(Mac, u32),
    Stale(Mac),
}

/// A neighbour as the application sees it.
#[derive(Debug, Clone, Copy, PartialEq, Eq)]
pub enum Shown {
    Incomplete,
    Reachable(Mac, u32),
    Stale(Mac),
}

#[derive(Debug, Clone, PartialEq, Eq)]
pub enum Advert {
    Off,
    Taken,
    /// Left at a malformed option.
    Malformed,
}

#[derive(Debug, Clone, PartialEq, Eq)]
pub enum Poll {
    Off,
    Nothing,
    Solicit(Vec<u8>),
    NoRoom,
}

#[derive(Debug, Clone, Copy, PartialEq, Eq)]
pub enum Kept {
    /// The application's: no time.
    Always,
    Until(u32),
    Never,
}

#[derive(Debug, Clone, Copy, PartialEq, Eq)]
pub enum Phase {
    Start,
    Discovering(u32),
    Maintaining,
    None,
}

/// What SLAAC holds beside its tables.
#[derive(Debug, Clone, Copy, PartialEq, Eq)]
pub struct Solicitor {
    pub phase: Phase,
    pub left: u8,
    pub sync: bool,
    pub seen: bool,
    pub managed: bool,
    pub other: bool,
}

struct NoDevice;

impl Driver for NoDevice {
    fn link_state(&mut self) -> LinkState {
        LinkState::Down
    }
    fn can_transmit(&mut self) -> bool {
        true
    }
    fn set_multicast_filter(&mut self, _addrs: &[[u8; 6]]) {}
}

fn at(millis: u32) -> Instant {
    Instant::from_millis(millis)
}

fn v6(addr: Addr) -> Ipv6Addr {
    Ipv6Addr::from_octets(addr)
}

fn ip(addr: Addr) -> IpAddr {
    IpAddr::V6(v6(addr))
}

fn octets(addr: IpAddr) -> Addr {
    match addr {
        IpAddr::V6(addr) => addr.octets(),
    }
}

fn hw(mac: Mac) -> HardwareAddress {
    HardwareAddress::Ethernet(EthernetAddress(mac))
}

fn mac(hw: HardwareAddress) -> Mac {
    match hw {
        HardwareAddress::Ethernet(addr) => addr.0,
    }
}

fn shown(neighbor: crate::Neighbor) -> (usize, Addr, Shown) {
    use crate::NeighborState::*;
    let state = match neighbor.state {
        Incomplete => Shown::Incomplete,
        Reachable {
            hardware_addr,
            expires_at,
        } => Shown::Reachable(mac(hardware_addr), expires_at.as_millis()),
        Stale { hardware_addr } => Shown::Stale(mac(hardware_addr)),
    };
    (neighbor.iface.index(), octets(neighbor.addr), state)
}

/// The real test: neither multicast nor unspecified.
pub fn is_unicast(addr: Addr) -> bool {
    ip(addr).is_unicast()
}

/// The real test of a hardware address.
pub fn is_unicast_mac(addr: Mac) -> bool {
    hw(addr).is_unicast()
}

/// What kind of address it is, by the real tests.
#[derive(Debug, Clone, Copy, PartialEq, Eq)]
pub struct AddrKind {
    pub unicast: bool,
    pub multicast: bool,
    /// fe80::/64.
    pub link_local: bool,
    pub unspecified: bool,
    pub all_routers: bool,
}

pub fn kind(addr: Addr) -> AddrKind {
    let addr = v6(addr);
    AddrKind {
        unicast: addr.x_is_unicast(),
        multicast: addr.is_multicast(),
        link_local: addr.is_link_local(),
        unspecified: addr.is_unspecified(),
        all_routers: addr == IPV6_LINK_LOCAL_ALL_ROUTERS,
    }
}

/// The real EUI-64 of a hardware address.
pub fn eui_64(addr: Mac) -> [u8; 8] {
    hw(addr).as_eui_64().unwrap()
}

/// The real address of a prefix, whose length is at most 128, and a hardware address.
pub fn form(prefix: Addr, len: u8, mac: Mac) -> Option<Addr> {
    let formed = probe_form(&Ipv6Cidr::new(v6(prefix), len), hw(mac))?;
    assert_eq!(formed.prefix_len(), 64);
    Some(formed.address().octets())
}

/// The real `mask`; it asserts that the length is 128 at most.
pub fn mask(addr: Addr, len: u8) -> Addr {
    v6(addr).mask(len)
}

/// The real length check, type and code of an advertisement: document 01's number 5 if false.
pub fn is_advertisement(message: &[u8]) -> bool {
    advertisement(message).is_some()
}

/// Lifetime in seconds, managed, other: by the real checks and getters.
pub fn advertisement(message: &[u8]) -> Option<(u32, bool, bool)> {
    let mut message = message.to_vec();
    let packet = Icmpv6Packet::new_checked(&mut message).ok()?;
    if packet.msg_type() != Icmpv6Message::RouterAdvert || packet.msg_code() != 0 {
        return None;
    }
    let flags = packet.router_flags();
    let (managed, other) = (flags.contains(NdiscRouterFlags::MANAGED), flags.contains(NdiscRouterFlags::OTHER));
    Some((packet.router_lifetime().as_secs(), managed, other))
}

/// The Rust has no such function: the real length check and type, the code, and the real ff02::2.
pub fn is_solicitation(message: &[u8], dst: Addr) -> bool {
    let mut message = message.to_vec();
    match Icmpv6Packet::new_checked(&mut message) {
        Ok(packet) => {
            let solicits = packet.msg_type() == Icmpv6Message::RouterSolicit && packet.msg_code() == 0;
            solicits && v6(dst) == IPV6_LINK_LOCAL_ALL_ROUTERS
        }
        Err(_) => false,
    }
}

/// The real checksum of a message as it stands. Where its checksum field is zero, the real `fill_checksum` must say the same.
pub fn checksum(src: Addr, dst: Addr, message: &[u8]) -> u16 {
    let (src, dst) = (v6(src), v6(dst));
    let sum = !checksum::combine(&[
        checksum::pseudo_header_v6(&src, &dst, IpProtocol::Icmpv6, message.len() as u32),
        checksum::data(message),
    ]);
    if message.len() >= 4 && message[2..4] == [0, 0] {
        let mut message = message.to_vec();
        let mut packet = Icmpv6Packet::new_unchecked(&mut message);
        packet.fill_checksum(&src, &dst);
        assert_eq!(packet.checksum(), sum);
    }
    sum
}

// ---- the clock

/// What the real clock says that it is.
pub fn clock_now(now: u32) -> u32 {
    Clock::probe(at(now), None).now().as_millis()
}

/// Whether the real clock says that a time has come, and its deadline afterwards.
pub fn clock_expired(now: u32, deadline: Option<u32>, time: u32) -> (bool, Option<u32>) {
    let mut clock = Clock::probe(at(now), deadline.map(at));
    let expired = clock.expired(at(time));
    (expired, clock.probe_deadline().map(|t| t.as_millis()))
}

/// The real clock's deadline after a time was scheduled, which must be after now.
pub fn clock_schedule(now: u32, deadline: Option<u32>, time: u32) -> Option<u32> {
    let mut clock = Clock::probe(at(now), deadline.map(at));
    clock.schedule(at(time));
    clock.probe_deadline().map(|t| t.as_millis())
}

/// The longest duration of the Rust, in ms.
pub const LONGEST: u32 = Duration::MAX.as_millis();

/// The real addition; `millis` is at most `LONGEST`.
pub fn add(time: u32, millis: u32) -> u32 {
    (at(time) + Duration::from_millis(millis)).as_millis()
}

thread_local! {
    static QUIET: Cell<bool> = const { Cell::new(false) };
}

/// Keep a panic that `past_filter` expects off standard error. Call once.
pub fn quiet_expected_panics() {
    let hook = std::panic::take_hook();
    std::panic::set_hook(Box::new(move |info| {
        if !QUIET.with(|q| q.get()) {
            hook(info);
        }
    }));
}

/// Run `f`, which ends in `config_changed`. That function stays behind in the port, and in the Rust it asserts that each
/// address is unicast when it works out the multicast filter; the table is complete by then. The Rust's own
/// `add_ip_addr` keeps such an address out, document 01 does not, so with one in the table the assertion is passed over.
fn past_filter(expected: bool, f: impl FnOnce()) {
    if !expected {
        return f();
    }
    QUIET.with(|q| q.set(true));
    let _ = catch_unwind(AssertUnwindSafe(f));
    QUIET.with(|q| q.set(false));
}

pub struct World {
    stack: Stack<'static>,
}

impl World {
    /// Four interfaces with these hardware addresses, no address, link down, SLAAC on.
    pub fn new(macs: [Mac; IFACES]) -> World {
        let caps = Capabilities {
            max_transmission_unit: 1514,
            tx_headroom: 0,
            checksum: ChecksumCapabilities::default(),
        };
        let mut items = Vec::new();
        for (i, m) in macs.into_iter().enumerate() {
            items.push(IfaceState {
                handle: IfaceHandle::new(i),
                driver: MaybeBox::Boxed(Box::new(NoDevice)),
                medium: Medium::Ethernet,
                caps: caps.clone(),
                ip_mtu: 1500,
                ip_headroom: 14,
                hardware_addr: hw(m),
                ip_addrs: StoreVec::new(),
                config_generation: 0,
                slaac: None,
                last_link_state: LinkState::Down,
            });
        }
        let inner = StackInner {
            pool: Pool { empty: false },
            routes: Routes::new(),
            neighbor_cache: NeighborCache::new(),
            pending: PendingQueue::new(),
            sent: Vec::new(),
        };
        let mut world = World {
            stack: Stack {
                inner,
                ifaces: Slab { items },
            },
        };
        for i in 0..IFACES {
            world.turn_on(i);
        }
        driver::take_dropped();
        world
    }

    fn state(&self, iface: usize) -> &IfaceState<'static> {
        self.stack.ifaces.get(iface)
    }

    fn state_mut(&mut self, iface: usize) -> &mut IfaceState<'static> {
        self.stack.ifaces.get_mut(iface)
    }

    fn odd_address(&self, iface: usize) -> bool {
        self.state(iface).cidrs().any(|c| !c.address().is_unicast())
    }

    // ---- the interface

    /// Put an application's address into the table, if there is room. The real `add_ip_addr` has other rules than
    /// document 01 and is not used.
    pub fn push_static(&mut self, iface: usize, addr: Addr, len: u8) -> bool {
        let addr = IfaceAddr::manual(IpCidr::new(ip(addr), len));
        self.state_mut(iface).ip_addrs.push(addr).is_ok()
    }

    pub fn set_link(&mut self, iface: usize, up: bool) {
        self.state_mut(iface).last_link_state = if up { LinkState::Up } else { LinkState::Down };
    }

    /// Address, length, whether SLAAC's, preferred.
    pub fn addresses(&self, iface: usize) -> Vec<(Addr, u8, bool, Kept)> {
        let entry = |a: &IfaceAddr| {
            let kept = match a.preferred {
                Preferred::Always => Kept::Always,
                Preferred::Until(t) => Kept::Until(t.as_millis()),
                Preferred::Never => Kept::Never,
            };
            let slaac = a.origin == AddrOrigin::Slaac;
            (octets(a.cidr.address()), a.cidr.prefix_len(), slaac, kept)
        };
        self.state(iface).ip_addrs.iter().map(entry).collect()
    }

    /// Interface, prefix, length, via, whether SLAAC's, expiry.
    pub fn routes(&self) -> Vec<(usize, Addr, u8, Addr, bool, Option<u32>)> {
        let entry = |r: &Route| {
            (
                r.iface.index(),
                octets(r.cidr.address()),
                r.cidr.prefix_len(),
                octets(r.via_router),
                r.origin == RouteOrigin::Slaac,
                r.expires_at.map(|t| t.as_millis()),
            )
        };
        self.stack.inner.routes.iter().map(entry).collect()
    }

    /// Add an application's route by the real call, which refuses a full table, and a router that is not unicast.
    pub fn add_route(&mut self, iface: usize, prefix: Addr, len: u8, via: Addr) -> Result<(), RouteError> {
        let mut route = Route::new_ipv6_gateway(v6(via), IfaceHandle::new(iface));
        route.cidr = IpCidr::new(ip(prefix), len);
        self.stack.inner.routes.add(route)
    }

    /// The first link-local address.
    pub fn source(&self, iface: usize) -> Option<Addr> {
        self.state(iface).link_local_ipv6_address().map(|addr| addr.octets())
    }

    // ---- SLAAC

    pub fn turn_on(&mut self, iface: usize) {
        let handle = IfaceHandle::new(iface);
        self.stack.iface(handle).set_slaac(Some(SlaacConfig::default())).unwrap();
    }

    /// The handles of the packets that went come back in the order in which they were dropped. The real call returns nothing.
    pub fn turn_off(&mut self, iface: usize) -> Vec<u32> {
        let handle = IfaceHandle::new(iface);
        let odd = self.odd_address(iface);
        let stack = &mut self.stack;
        past_filter(odd, || stack.iface(handle).set_slaac(None).unwrap());
        driver::take_dropped()
    }

    pub fn is_on(&self, iface: usize) -> bool {
        self.state(iface).slaac.is_some()
    }

    pub fn restart(&mut self, iface: usize) {
        self.stack.iface(IfaceHandle::new(iface)).restart_slaac();
    }

    /// The message must have passed `is_advertisement`.
    pub fn advertise(&mut self, iface: usize, src: Addr, message: &[u8], now: u32) -> Advert {
        let state = self.stack.ifaces.get_mut(iface);
        let Some(slaac) = &mut state.slaac else {
            return Advert::Off;
        };
        let before = slaac.probe_set_seen(false);
        let mut message = message.to_vec();
        let mut packet = Icmpv6Packet::new_checked(&mut message).unwrap();
        state.slaac_process_advertisement(&mut self.stack.inner, v6(src), &mut packet, at(now));
        let slaac = state.slaac.as_mut().unwrap();
        if slaac.state().routers_seen {
            Advert::Taken
        } else {
            slaac.probe_set_seen(before);
            Advert::Malformed
        }
    }

    /// A poll of SLAAC with a clock that has counted `deadline`; the clock's deadline comes back. Without `room` the
    /// pool is empty.
    pub fn poll(&mut self, iface: usize, now: u32, deadline: Option<u32>, room: bool) -> (Poll, Option<u32>) {
        if !self.is_on(iface) {
            return (Poll::Off, deadline);
        }
        let left = self.solicitor(iface).unwrap().left;
        let mut clock = Clock::probe(at(now), deadline.map(at));
        self.stack.inner.pool.empty = !room;
        let odd = self.odd_address(iface);
        let Stack { inner, ifaces } = &mut self.stack;
        past_filter(odd, || ifaces.get_mut(iface).slaac_poll(inner, &mut clock));
        self.stack.inner.pool.empty = false;
        let deadline = clock.probe_deadline().map(|t| t.as_millis());
        let answer = match self.stack.inner.sent.pop() {
            Some((_, _, _, message)) => Poll::Solicit(message),
            None if self.solicitor(iface).unwrap().left != left => Poll::NoRoom,
            None => Poll::Nothing,
        };
        assert!(self.stack.inner.sent.is_empty());
        (answer, deadline)
    }

    /// Prefix, length, preferred, valid.
    pub fn prefixes(&self, iface: usize) -> Vec<(Addr, u8, u32, u32)> {
        let Some(slaac) = &self.state(iface).slaac else {
            return Vec::new();
        };
        let entry = |(c, p, v): (crate::wire::Ipv6Cidr, Instant, Instant)| {
            (c.address().octets(), c.prefix_len(), p.as_millis(), v.as_millis())
        };
        slaac.probe_prefixes().into_iter().map(entry).collect()
    }

    /// Router, expiry.
    pub fn routers(&self, iface: usize) -> Vec<(Addr, u32)> {
        let Some(slaac) = &self.state(iface).slaac else {
            return Vec::new();
        };
        let entry = |(r, t): (Ipv6Addr, Instant)| (r.octets(), t.as_millis());
        slaac.probe_routers().into_iter().map(entry).collect()
    }

    pub fn solicitor(&self, iface: usize) -> Option<Solicitor> {
        let slaac = self.state(iface).slaac.as_ref()?;
        let phase = match slaac.probe_phase() {
            ProbePhase::Start => Phase::Start,
            ProbePhase::Discovering(t) => Phase::Discovering(t.as_millis()),
            ProbePhase::Maintaining => Phase::Maintaining,
            ProbePhase::None => Phase::None,
        };
        Some(Solicitor {
            phase,
            left: slaac.probe_left(),
            sync: slaac.probe_sync(),
            seen: slaac.state().routers_seen,
            managed: slaac.state().managed,
            other: slaac.state().other_config,
        })
    }

    // ---- the neighbour cache

    fn cache(&mut self) -> &mut NeighborCache {
        &mut self.stack.inner.neighbor_cache
    }

    pub fn lookup(&mut self, iface: usize, addr: Addr) -> Lookup {
        match self.cache().lookup(&(IfaceHandle::new(iface), ip(addr))) {
            Answer::Found(m) => Lookup::Found(mac(m)),
            Answer::Pending => Lookup::Pending,
            Answer::NotFound => Lookup::NotFound,
        }
    }

    pub fn start(&mut self, iface: usize, addr: Addr) {
        self.cache().start_resolution((IfaceHandle::new(iface), ip(addr)));
    }

    pub fn fill(&mut self, iface: usize, addr: Addr, mac: Mac, now: u32) {
        self.cache().fill((IfaceHandle::new(iface), ip(addr)), hw(mac), at(now));
    }

    /// False if the real call refuses: an address is not unicast.
    pub fn insert(&mut self, iface: usize, addr: Addr, mac: Mac, expires: u32) -> bool {
        let handle = IfaceHandle::new(iface);
        self.cache().insert(handle, ip(addr), hw(mac), at(expires)).is_ok()
    }

    pub fn get(&mut self, iface: usize, addr: Addr) -> Option<Shown> {
        let found = self.cache().get(IfaceHandle::new(iface), ip(addr))?;
        Some(shown(found).2)
    }

    pub fn remove(&mut self, iface: usize, addr: Addr) -> Option<Shown> {
        let gone = self.cache().remove(IfaceHandle::new(iface), ip(addr))?;
        Some(shown(gone).2)
    }

    pub fn clear(&mut self, iface: usize) {
        self.cache().clear_iface(IfaceHandle::new(iface));
    }

    /// One expiry pass, then the calls for events from place 0 until one finds none. How many entries a call looked at is read off the real
    /// cursor: as many as it went on by, and one more for a failure, at whose place it stays.
    pub fn sweep(&mut self, iface: usize, now: u32, deadline: Option<u32>) -> Swept {
        let handle = IfaceHandle::new(iface);
        let mut clock = Clock::probe(at(now), deadline.map(at));
        let cache = self.cache();
        cache.expire(&mut clock);
        let mut events = Vec::new();
        let (mut looked, mut calls) = (0, 0);
        let mut cursor = 0;
        loop {
            let place = cursor;
            let event = cache.poll_retransmit(handle, at(now), &mut cursor);
            calls += 1;
            looked += cursor.checked_sub(place).expect("the cursor does not go back");
            match event {
                None => break,
                Some(ProbeEvent::Retransmit(addr)) => {
                    let stays = cache.probe_entries().get(cursor).is_some_and(|(key, _)| *key == (handle, addr));
                    assert!(!stays, "the cursor leaves an entry that is retransmitted");
                    events.push(Event::Retransmit(octets(addr)));
                }
                Some(ProbeEvent::Failed(addr)) => {
                    looked += 1;
                    events.push(Event::Failed(octets(addr)));
                }
            }
        }
        Swept {
            events,
            deadline: clock.probe_deadline().map(|t| t.as_millis()),
            looked,
            calls,
        }
    }

    /// The listing, all interfaces, in table order.
    pub fn neighbors(&self) -> Vec<(usize, Addr, Shown)> {
        self.stack.inner.neighbor_cache.iter().map(shown).collect()
    }

    /// The entries with their whole state, in table order.
    pub fn entries(&self) -> Vec<(usize, Addr, State)> {
        let entry = |((iface, addr), state): ((IfaceHandle, IpAddr), ProbeState)| {
            let state = match state {
                ProbeState::Started => State::Started,
                ProbeState::Incomplete(probes, due) => State::Incomplete(probes, due.as_millis()),
                ProbeState::Reachable(m, t) => State::Reachable(mac(m), t.as_millis()),
                ProbeState::Stale(m) => State::Stale(mac(m)),
            };
            (iface.index(), octets(addr), state)
        };
        self.stack.inner.neighbor_cache.probe_entries().into_iter().map(entry).collect()
    }

    // ---- the waiting packets

    /// The handles that the call dropped come back in the order in which they were dropped.
    pub fn push(&mut self, iface: usize, addr: Addr, handle: u32) -> Vec<u32> {
        let key = (IfaceHandle::new(iface), ip(addr));
        self.stack.inner.pending.push(key, PacketBuf::with_handle(handle));
        driver::take_dropped()
    }

    pub fn pop(&mut self, iface: usize, addr: Addr) -> Option<u32> {
        let key = (IfaceHandle::new(iface), ip(addr));
        let packet = self.stack.inner.pending.pop_matching(&key)?;
        let handle = packet.buf.into_handle();
        assert!(driver::take_dropped().is_empty());
        Some(handle)
    }

    pub fn purge_orphans(&mut self) -> Vec<u32> {
        let inner = &mut self.stack.inner;
        inner.pending.purge_orphans(&inner.neighbor_cache);
        driver::take_dropped()
    }

    pub fn purge_iface(&mut self, iface: usize) -> Vec<u32> {
        self.stack.inner.pending.purge_iface(IfaceHandle::new(iface));
        driver::take_dropped()
    }

    /// The packets, in queue order.
    pub fn waiting(&self) -> Vec<(usize, Addr, u32)> {
        let entry = |p: &crate::neighbor::PendingPacket| (p.key.0.index(), octets(p.key.1), p.buf.handle().unwrap());
        self.stack.inner.pending.probe_packets().map(entry).collect()
    }

    /// The handles of the packets that the world before this one held.
    pub fn dropped(&mut self) -> Vec<u32> {
        driver::take_dropped()
    }
}

// ---- options

/// What an option holds, by its type.
#[derive(Debug, Clone, PartialEq, Eq)]
pub enum Opt {
    Lladdr(u8, Mac),
    /// Length, flags, valid seconds, preferred seconds, prefix.
    Prefix(u8, u8, u32, u32, Addr),
    Mtu(u32),
    Other(u8),
}

/// The real check and getters on the option at the front of `bytes`: what it holds, its length in bytes, its data.
pub fn read_option(bytes: &[u8]) -> Option<(Opt, usize, Vec<u8>)> {
    let mut bytes = bytes.to_vec();
    let opt = NdiscOption::new_checked(&mut bytes).ok()?;
    let held = match opt.option_type() {
        NdiscOptionType::SourceLinkLayerAddr | NdiscOptionType::TargetLinkLayerAddr => {
            let raw = opt.link_layer_addr();
            Opt::Lladdr(opt.option_type().into(), raw.as_bytes().try_into().unwrap())
        }
        NdiscOptionType::PrefixInformation => Opt::Prefix(
            opt.prefix_len(),
            opt.prefix_flags().bits(),
            opt.valid_lifetime().as_millis(),
            opt.preferred_lifetime().as_millis(),
            opt.prefix().octets(),
        ),
        NdiscOptionType::Mtu => Opt::Mtu(opt.mtu()),
        other => Opt::Other(other.into()),
    };
    let len = opt.data_len() as usize * 8;
    Some((held, len, opt.data().to_vec()))
}

/// The real setters on the front of `bytes`, which must have room. `write_option` is the order in which the real stack
/// would call them; the lifetimes of a prefix are seconds.
pub fn write_option(bytes: &mut [u8], opt: &Opt) {
    let mut out = NdiscOption::new_unchecked(bytes);
    match *opt {
        Opt::Lladdr(kind, mac) => {
            out.set_option_type(kind.into());
            out.set_data_len(1);
            out.set_link_layer_addr(RawHardwareAddress::from_bytes(&mac));
        }
        Opt::Prefix(len, flags, valid, preferred, prefix) => {
            out.set_option_type(NdiscOptionType::PrefixInformation);
            out.set_data_len(4);
            out.set_prefix_len(len);
            out.set_prefix_flags(NdiscPrefixInfoFlags::from_bits_truncate(flags));
            out.set_valid_lifetime(Duration::from_secs(valid));
            out.set_preferred_lifetime(Duration::from_secs(preferred));
            out.clear_prefix_reserved();
            out.set_prefix(v6(prefix));
        }
        Opt::Mtu(mtu) => {
            out.set_option_type(NdiscOptionType::Mtu);
            out.set_data_len(1);
            out.clear_mtu_reserved();
            out.set_mtu(mtu);
        }
        Opt::Other(_) => unreachable!("no writer"),
    }
}

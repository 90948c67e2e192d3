//! The Rust's side of the benchmark: runs one operation many times. Standard input is as for the port (driver.rt.in), and both sides
//! print the same sums. Each call is a function of its own that is not inlined, so that both sides have one border per call.

use std::hint::black_box;
use std::io::{Read, Write};
use std::mem::{MaybeUninit, size_of};

use crate::driver::{self, Capabilities, ChecksumCapabilities, Driver, LinkState, PacketBuf};
use crate::iface::slaac::{Slaac, SlaacConfig, SlaacState};
use crate::iface::{IfaceAddr, IfaceHandle, IfaceState, Medium};
use crate::neighbor::{Answer, Key, Neighbor, NeighborCache, PendingPacket, PendingQueue, ProbeEvent};
use crate::pool::Pool;
use crate::route::{Route, Routes};
use crate::stack::StackInner;
use crate::storage::{MaybeBox, Vec as StoreVec};
use crate::time::{Clock, Duration, Instant};
use crate::wire::{
    EthernetAddress, HardwareAddress, IPV6_LINK_LOCAL_ALL_ROUTERS, Icmpv6Message, Icmpv6Packet, IpAddr, IpCidr, Ipv6Addr,
    NdiscOption, NdiscOptionType, NdiscPrefixInfoFlags, RawHardwareAddress,
};

struct NoDevice;

impl Driver for NoDevice {
    fn link_state(&mut self) -> LinkState {
        LinkState::Down
    }
    fn can_transmit(&mut self) -> bool {
        true
    }
    fn set_multicast_filter(&mut self, _addrs: &[[u8; 6]]) {}
}

/// What is not known when compiling.
#[derive(Clone, Copy)]
struct Given {
    iface: IfaceHandle,
    base: u32,
}

fn v6(hi: u64, lo: u64) -> Ipv6Addr {
    Ipv6Addr::from_bits(u128::from(hi) << 64 | u128::from(lo))
}

fn key(g: Given, i: u64) -> Key {
    (g.iface, IpAddr::V6(v6(0x2001_0db8_0000_0001, 0x0211_22ff_fe00_0000 + 0x9e37 * i)))
}

fn router(i: u64) -> Ipv6Addr {
    v6(0xfe80_0000_0000_0000, 0x0211_22ff_fe00_0001 + i)
}

fn mac_of(lo: u32) -> HardwareAddress {
    let [a, b, c, d] = lo.to_be_bytes();
    HardwareAddress::Ethernet(EthernetAddress([0x02, 0x11, a, b, c, d]))
}

fn mac() -> HardwareAddress {
    mac_of(0x2233_4455)
}

fn low(m: &[u8]) -> u64 {
    u64::from(u32::from_be_bytes(m[2..6].try_into().unwrap()))
}

fn at(millis: u32) -> Instant {
    Instant::from_millis(millis)
}

fn clock(millis: u32) -> Clock {
    Clock::probe(at(millis), None)
}

/// The bytes of `from` over `to`, whatever `to` held.
#[inline(never)]
fn put_back<T>(to: &mut T, from: &T) {
    unsafe { (to as *mut T).copy_from_nonoverlapping(from, 1) }
}

fn copy<T>(from: &T) -> MaybeUninit<T> {
    let mut to = MaybeUninit::<T>::uninit();
    unsafe { to.as_mut_ptr().copy_from_nonoverlapping(from, 1) };
    to
}

// ---- the calls

#[inline(never)]
fn lookup(c: &NeighborCache, k: &Key) -> Answer {
    c.lookup(k)
}

#[inline(never)]
fn start(c: &mut NeighborCache, k: Key) {
    c.start_resolution(k)
}

#[inline(never)]
fn fill(c: &mut NeighborCache, k: Key, h: HardwareAddress, now: Instant) {
    c.fill(k, h, now)
}

#[inline(never)]
fn insert(c: &mut NeighborCache, k: Key, h: HardwareAddress, expires: Instant) -> bool {
    c.insert(k.0, k.1, h, expires).is_ok()
}

#[inline(never)]
fn remove(c: &mut NeighborCache, k: Key) -> Option<Neighbor> {
    c.remove(k.0, k.1)
}

#[inline(never)]
fn clear(c: &mut NeighborCache, iface: IfaceHandle) {
    c.clear_iface(iface)
}

struct Events {
    slots: [MaybeUninit<ProbeEvent>; 16],
    len: usize,
}

/// The expiry pass, and the probe events until there is none, kept as a host keeps them.
#[inline(never)]
fn sweep(c: &mut NeighborCache, clock: &mut Clock, iface: IfaceHandle, events: &mut Events) {
    c.expire(clock);
    events.len = 0;
    let mut cursor = 0;
    while let Some(event) = c.poll_retransmit(iface, clock.now(), &mut cursor) {
        events.slots[events.len].write(event);
        events.len += 1;
    }
}

#[inline(never)]
fn push(q: &mut PendingQueue, k: Key, buf: PacketBuf) {
    q.push(k, buf)
}

#[inline(never)]
fn release(q: &mut PendingQueue, k: &Key) -> Option<PendingPacket> {
    q.pop_matching(k)
}

#[inline(never)]
fn purge_orphans(q: &mut PendingQueue, c: &NeighborCache) {
    q.purge_orphans(c)
}

#[inline(never)]
fn purge_iface(q: &mut PendingQueue, iface: IfaceHandle) {
    q.purge_iface(iface)
}

/// With the checks of the header and the source that the port's call has.
#[inline(never)]
fn advertise(s: &mut IfaceState, inner: &mut StackInner, src: Ipv6Addr, message: &mut [u8], now: Instant) -> u8 {
    let Ok(mut packet) = Icmpv6Packet::new_checked(message) else {
        return 5;
    };
    if packet.msg_type() != Icmpv6Message::RouterAdvert || packet.msg_code() != 0 {
        return 5;
    }
    if !src.is_unicast_link_local() {
        return 6;
    }
    s.slaac_process_advertisement(inner, src, &mut packet, now);
    0
}

#[inline(never)]
fn poll(s: &mut IfaceState, inner: &mut StackInner, clock: &mut Clock) {
    s.slaac_poll(inner, clock)
}

#[inline(never)]
fn turn_off(s: &mut IfaceState, inner: &mut StackInner) {
    s.slaac_reset(inner)
}

/// The last thing that a sync and turning off do in the Rust, and not in the port: the multicast filter.
#[inline(never)]
fn config_changed(s: &mut IfaceState) {
    s.config_changed()
}

enum Held {
    Lladdr(u8, RawHardwareAddress),
    Prefix(u8, NdiscPrefixInfoFlags, Duration, Duration, Ipv6Addr),
    Mtu(u32),
    Other(u8),
}

#[inline(never)]
fn read_option(bytes: &mut [u8]) -> Option<(Held, usize)> {
    let opt = NdiscOption::new_checked(bytes).ok()?;
    let held = match opt.option_type() {
        NdiscOptionType::SourceLinkLayerAddr | NdiscOptionType::TargetLinkLayerAddr => {
            Held::Lladdr(opt.option_type().into(), opt.link_layer_addr())
        }
        NdiscOptionType::PrefixInformation => Held::Prefix(
            opt.prefix_len(),
            opt.prefix_flags(),
            opt.valid_lifetime(),
            opt.preferred_lifetime(),
            opt.prefix(),
        ),
        NdiscOptionType::Mtu => Held::Mtu(opt.mtu()),
        other => Held::Other(other.into()),
    };
    Some((held, opt.data_len() as usize))
}

/// The part of the message for an option of `len` bytes at `at`, if it fits: the port's writers test it.
fn part(message: &mut [u8], at: usize, len: usize) -> Option<NdiscOption<'_>> {
    let bytes = message.get_mut(at..)?;
    if bytes.len() < len { None } else { Some(NdiscOption::new_unchecked(bytes)) }
}

fn write_lladdr(message: &mut [u8], at: usize, kind: NdiscOptionType, h: HardwareAddress) -> bool {
    let Some(mut out) = part(message, at, 8) else {
        return false;
    };
    out.set_option_type(kind);
    out.set_data_len(1);
    out.set_link_layer_addr(h.into());
    true
}

#[inline(never)]
fn write_source(message: &mut [u8], at: usize, h: HardwareAddress) -> bool {
    write_lladdr(message, at, NdiscOptionType::SourceLinkLayerAddr, h)
}

#[inline(never)]
fn write_target(message: &mut [u8], at: usize, h: HardwareAddress) -> bool {
    write_lladdr(message, at, NdiscOptionType::TargetLinkLayerAddr, h)
}

struct Info {
    len: u8,
    flags: NdiscPrefixInfoFlags,
    valid: Duration,
    preferred: Duration,
    prefix: Ipv6Addr,
}

#[inline(never)]
fn write_prefix(message: &mut [u8], at: usize, p: Info) -> bool {
    let Some(mut out) = part(message, at, 32) else {
        return false;
    };
    out.set_option_type(NdiscOptionType::PrefixInformation);
    out.set_data_len(4);
    out.set_prefix_len(p.len);
    out.set_prefix_flags(p.flags);
    out.set_valid_lifetime(p.valid);
    out.set_preferred_lifetime(p.preferred);
    out.clear_prefix_reserved();
    out.set_prefix(p.prefix);
    true
}

#[inline(never)]
fn write_mtu(message: &mut [u8], at: usize, mtu: u32) -> bool {
    let Some(mut out) = part(message, at, 8) else {
        return false;
    };
    out.set_option_type(NdiscOptionType::Mtu);
    out.set_data_len(1);
    out.clear_mtu_reserved();
    out.set_mtu(mtu);
    true
}

/// The message as `ndisc_rs_egress` writes it.
#[inline(never)]
fn write_solicit(buf: &mut [u8], src: Ipv6Addr, h: HardwareAddress) -> bool {
    if buf.len() < 16 {
        return false;
    }
    let mut rs = Icmpv6Packet::new_unchecked(&mut buf[..16]);
    rs.set_msg_type(Icmpv6Message::RouterSolicit);
    rs.set_msg_code(0);
    rs.clear_reserved();
    crate::stack::write_lladdr_option(rs.payload_mut(), NdiscOptionType::SourceLinkLayerAddr, h);
    rs.fill_checksum(&src, &IPV6_LINK_LOCAL_ALL_ROUTERS);
    true
}

// ---- tables to begin with

fn filled(g: Given, k: u64) -> NeighborCache {
    let mut c = NeighborCache::new();
    for i in 0..k {
        fill(&mut c, key(g, i), mac(), at(g.base + i as u32));
    }
    c
}

fn started(g: Given, k: u64) -> NeighborCache {
    let mut c = NeighborCache::new();
    for i in 0..k {
        start(&mut c, key(g, i));
    }
    c
}

fn no_events() -> Events {
    Events {
        slots: [const { MaybeUninit::uninit() }; 16],
        len: 0,
    }
}

fn probed(g: Given, k: u64, times: u32) -> NeighborCache {
    let mut c = started(g, k);
    for i in 0..times {
        sweep(&mut c, &mut clock(g.base + 1000 * i), g.iface, &mut no_events());
    }
    c
}

fn queued(g: Given, first: u64) -> PendingQueue {
    let mut q = PendingQueue::new();
    for i in 0..8 {
        push(&mut q, key(g, first + i), PacketBuf::with_handle(100 + i as u32));
    }
    q
}

fn prefix(i: u64) -> Info {
    Info {
        len: 64,
        flags: NdiscPrefixInfoFlags::from_bits_truncate(0xc0),
        valid: Duration::from_secs(7200),
        preferred: Duration::from_secs(3600),
        prefix: v6(0x2001_0db8_0000_0001 + i, 0),
    }
}

fn header(m: &mut [u8]) {
    m[0] = 134;
    m[4] = 64;
    m[5] = 0x40;
    m[6] = 7;
    m[7] = 8;
}

fn small() -> [u8; 48] {
    let mut m = [0; 48];
    header(&mut m);
    write_prefix(&mut m, 16, prefix(0));
    m
}

fn large() -> [u8; 152] {
    let mut m = [0; 152];
    header(&mut m);
    write_source(&mut m, 16, mac());
    for i in 0..4 {
        write_prefix(&mut m, 24 + 32 * i, prefix(i as u64));
    }
    m
}

struct World {
    state: IfaceState<'static>,
    inner: StackInner,
}

fn world(g: Given, cache: NeighborCache, pending: PendingQueue) -> World {
    let mut addrs = StoreVec::new();
    let own = IpCidr::new(IpAddr::V6(v6(0xfe80_0000_0000_0000, 0x11_22ff_fe33_4455)), 64);
    let _ = addrs.push(IfaceAddr::manual(own));
    World {
        state: IfaceState {
            handle: g.iface,
            driver: MaybeBox::Boxed(Box::new(NoDevice)),
            medium: Medium::Ethernet,
            caps: Capabilities {
                max_transmission_unit: 1514,
                tx_headroom: 0,
                checksum: ChecksumCapabilities::default(),
            },
            ip_mtu: 1500,
            ip_headroom: 14,
            hardware_addr: mac(),
            ip_addrs: addrs,
            config_generation: 0,
            slaac: Some(Slaac::new(SlaacConfig::default())),
            last_link_state: LinkState::Up,
        },
        inner: StackInner {
            pool: Pool { empty: false },
            routes: Routes::new(),
            neighbor_cache: cache,
            pending,
            sent: 0,
        },
    }
}

impl World {
    fn advert(&mut self, from: u64, m: &mut [u8], now: u32) {
        advertise(&mut self.state, &mut self.inner, router(from), m, at(now));
    }

    fn poll(&mut self, now: u32) {
        poll(&mut self.state, &mut self.inner, &mut clock(now));
    }

    fn put_back(&mut self, to: &Saved) {
        unsafe {
            put_back(&mut self.state.slaac, to.slaac.assume_init_ref());
            put_back(&mut self.state.ip_addrs, to.addrs.assume_init_ref());
            put_back(&mut self.inner.routes, to.routes.assume_init_ref());
        }
    }

    fn saved(&self) -> Saved {
        Saved {
            slaac: copy(&self.state.slaac),
            addrs: copy(&self.state.ip_addrs),
            routes: copy(&self.inner.routes),
        }
    }
}

struct Saved {
    slaac: MaybeUninit<Option<Slaac>>,
    addrs: MaybeUninit<StoreVec<IfaceAddr, 8>>,
    routes: MaybeUninit<Routes>,
}

fn empty_world(g: Given) -> World {
    world(g, NeighborCache::new(), PendingQueue::new())
}

fn taught(g: Given) -> World {
    let mut w = empty_world(g);
    w.poll(g.base);
    w.advert(1, &mut large(), g.base);
    w.advert(0, &mut large(), g.base);
    w
}

fn synced(g: Given) -> World {
    let mut w = taught(g);
    w.poll(g.base + 1);
    w
}

// ---- the runs

fn run_lookup(c: NeighborCache, g: Given, k: u64, n: u64) -> u64 {
    let mut sum = 0u64;
    for i in 0..n {
        let key = black_box(key(g, k + i % 2 * (k / 100)));
        sum = sum.wrapping_add(match lookup(&c, &key) {
            Answer::Found(HardwareAddress::Ethernet(h)) => low(&h.0),
            Answer::Pending => 2,
            Answer::NotFound => 3,
        });
    }
    sum
}

fn run_start(mut c: NeighborCache, g: Given, k: u64, n: u64) -> u64 {
    for i in 0..n {
        start(&mut c, key(g, k + i % 2 * (k / 100)));
    }
    c.len() as u64
}

fn run_fill(mut c: NeighborCache, g: Given, n: u64) -> u64 {
    for i in 0..n {
        fill(&mut c, key(g, i % 16), mac(), at(g.base + i as u32));
    }
    c.len() as u64
}

fn run_fill_new(mut c: NeighborCache, g: Given, n: u64) -> u64 {
    let saved = copy(&c);
    let mut sum = 0u64;
    for i in 0..n {
        fill(&mut c, key(g, 100 + i % 2), mac(), at(g.base + i as u32));
        sum += c.len() as u64;
        put_back(&mut c, unsafe { saved.assume_init_ref() });
    }
    sum
}

fn run_insert(mut c: NeighborCache, g: Given, n: u64) -> u64 {
    for i in 0..n {
        insert(&mut c, key(g, i % 16), mac(), at(g.base + i as u32));
    }
    c.len() as u64
}

fn run_remove_start(mut c: NeighborCache, g: Given, n: u64) -> u64 {
    for i in 0..n {
        black_box(remove(&mut c, key(g, i % 16)));
        start(&mut c, key(g, i % 16));
    }
    c.len() as u64
}

fn run_remove(mut c: NeighborCache, g: Given, n: u64) -> u64 {
    let saved = copy(&c);
    let mut sum = 0u64;
    for i in 0..n {
        black_box(remove(&mut c, key(g, 7 + i % 2)));
        sum += c.len() as u64;
        put_back(&mut c, unsafe { saved.assume_init_ref() });
    }
    sum
}

fn run_clear(mut c: NeighborCache, g: Given, n: u64) -> u64 {
    let saved = copy(&c);
    let mut sum = 0u64;
    for _ in 0..n {
        clear(&mut c, g.iface);
        sum += c.len() as u64;
        put_back(&mut c, unsafe { saved.assume_init_ref() });
    }
    sum
}

fn run_put_back_cache(mut c: NeighborCache, n: u64) -> u64 {
    let saved = copy(&c);
    for _ in 0..n {
        put_back(black_box(&mut c), unsafe { saved.assume_init_ref() });
    }
    c.len() as u64
}

fn run_sweep(mut c: NeighborCache, g: Given, n: u64) -> u64 {
    let mut events = no_events();
    let mut sum = 0u64;
    for i in 0..n {
        let mut k = clock(g.base + 10 + (i % 2) as u32);
        sweep(&mut c, &mut k, g.iface, &mut events);
        black_box(&k);
        sum += events.len as u64;
    }
    sum + c.len() as u64
}

fn run_due(mut c: NeighborCache, g: Given, late: u32, n: u64) -> u64 {
    let saved = copy(&c);
    let mut events = no_events();
    let mut sum = 0u64;
    for i in 0..n {
        let mut k = clock(g.base + late + (i % 2) as u32);
        sweep(&mut c, &mut k, g.iface, &mut events);
        black_box(&k);
        sum += events.len as u64 + c.len() as u64;
        put_back(&mut c, unsafe { saved.assume_init_ref() });
    }
    sum
}

fn run_push(mut q: PendingQueue, g: Given, n: u64) -> u64 {
    let mut sum = 0u64;
    for i in 0..n {
        push(&mut q, key(g, i % 16), PacketBuf::with_handle(i as u32));
        sum += driver::take_dropped() as u64;
    }
    // The port's sum: 100 to 107, then what was pushed 8 before.
    let early = n.min(8);
    assert_eq!(sum, n);
    let left = q.probe_packets().count() as u64;
    std::mem::forget(q);
    (100..100 + early).sum::<u64>() + (0..n - early).sum::<u64>() + left
}

fn run_release(mut q: PendingQueue, g: Given, n: u64) -> u64 {
    let saved = copy(&q);
    let mut sum = 0u64;
    for i in 0..n {
        if let Some(p) = release(&mut q, &key(g, 3 + i % 2)) {
            sum += u64::from(p.buf.into_handle()) + 7;
        }
        put_back(&mut q, unsafe { saved.assume_init_ref() });
    }
    std::mem::forget(q);
    sum
}

fn run_orphans(mut q: PendingQueue, c: NeighborCache, n: u64) -> u64 {
    let saved = copy(&q);
    let mut sum = 0u64;
    for _ in 0..n {
        purge_orphans(&mut q, &c);
        sum += driver::take_dropped() as u64 + 4;
        put_back(&mut q, unsafe { saved.assume_init_ref() });
    }
    std::mem::forget(q);
    sum
}

fn run_purge(mut q: PendingQueue, g: Given, n: u64) -> u64 {
    let saved = copy(&q);
    let mut sum = 0u64;
    for _ in 0..n {
        purge_iface(&mut q, g.iface);
        sum += driver::take_dropped() as u64;
        put_back(&mut q, unsafe { saved.assume_init_ref() });
    }
    std::mem::forget(q);
    sum
}

fn run_put_back_queue(mut q: PendingQueue, n: u64) -> u64 {
    let saved = copy(&q);
    for _ in 0..n {
        put_back(black_box(&mut q), unsafe { saved.assume_init_ref() });
    }
    std::mem::forget(q);
    n
}

fn run_advert(mut w: World, g: Given, m: &mut [u8], n: u64) -> u64 {
    for i in 0..n {
        w.advert(0, m, g.base + (i % 2) as u32);
    }
    let s = w.state.slaac.as_ref().unwrap();
    (s.probe_prefixes().len() * 100 + s.probe_routers().len() * 10 + w.inner.neighbor_cache.len()) as u64
}

fn run_poll(mut w: World, g: Given, n: u64) -> u64 {
    for i in 0..n {
        w.poll(g.base + 2 + (i % 2) as u32);
    }
    let s = w.state.slaac.as_ref().unwrap();
    (s.probe_prefixes().len() * 100 + w.state.ip_addrs.len() * 10 + w.inner.routes.len()) as u64
}

fn run_poll_again(mut w: World, from: Saved, g: Given, n: u64) -> u64 {
    w.put_back(&from);
    w.inner.sent = 0;
    let mut sum = 0u64;
    for i in 0..n {
        w.poll(g.base + 2 + (i % 2) as u32);
        sum += (w.state.ip_addrs.len() * 10 + w.inner.routes.len()) as u64;
        w.put_back(&from);
    }
    sum + w.inner.sent
}

fn run_put_back_slaac(mut w: World, n: u64) -> u64 {
    let from = w.saved();
    for _ in 0..n {
        black_box(&mut w).put_back(&from);
    }
    n
}

fn run_config_changed(mut w: World, n: u64) -> u64 {
    for _ in 0..n {
        config_changed(&mut w.state);
    }
    n
}

fn run_off(mut w: World, n: u64) -> u64 {
    let (from, cache, queue) = (w.saved(), copy(&w.inner.neighbor_cache), copy(&w.inner.pending));
    let mut sum = 0u64;
    for _ in 0..n {
        turn_off(&mut w.state, &mut w.inner);
        sum += (w.state.ip_addrs.len() * 10 + w.inner.routes.len() + w.inner.neighbor_cache.len()) as u64;
        unsafe {
            w.put_back(&from);
            put_back(&mut w.inner.neighbor_cache, cache.assume_init_ref());
            put_back(&mut w.inner.pending, queue.assume_init_ref());
        }
    }
    sum
}

fn run_read(bytes: &mut [u8], n: u64) -> u64 {
    let mut sum = 0u64;
    for _ in 0..n {
        if let Some((held, units)) = read_option(black_box(&mut *bytes)) {
            let held = match held {
                Held::Lladdr(_, h) => low(h.as_bytes()),
                Held::Prefix(len, _, valid, _, _) => u64::from(len) + u64::from(valid.as_millis()) / 1000,
                Held::Mtu(mtu) => u64::from(mtu),
                Held::Other(kind) => u64::from(kind),
            };
            sum += held + units as u64;
        }
    }
    sum
}

fn run_write(m: &mut [u8], n: u64, place: usize, write: impl Fn(&mut [u8], u64)) -> u64 {
    let mut sum = 0u64;
    for i in 0..n {
        write(m, i);
        sum += u64::from(m[place]);
    }
    sum
}

fn run_solicit(m: &mut [u8], n: u64) -> u64 {
    let mut sum = 0u64;
    for i in 0..n {
        if write_solicit(m, router(i), mac()) {
            sum += u64::from(m[2]) * 256 + u64::from(m[3]);
        }
    }
    sum
}

fn option(kind: u8) -> [u8; 48] {
    let mut b = [0; 48];
    match kind {
        3 => {
            write_prefix(&mut b, 0, prefix(0));
        }
        5 => {
            write_mtu(&mut b, 0, 1280);
        }
        _ => {
            write_source(&mut b, 0, mac());
            b[0] = kind;
            if kind == 4 {
                b[1] = 6;
            }
        }
    }
    b
}

fn run(case: u64, g: Given, n: u64) -> u64 {
    match case {
        0 => run_lookup(filled(g, 16), g, 0, n),
        1 => run_lookup(filled(g, 16), g, 15, n),
        2 => run_lookup(filled(g, 16), g, 100, n),
        3 => run_start(started(g, 16), g, 100, n),
        4 => run_fill(filled(g, 16), g, n),
        5 => run_fill_new(filled(g, 15), g, n),
        6 => run_insert(filled(g, 16), g, n),
        7 => run_remove_start(started(g, 16), g, n),
        8 => run_remove(filled(g, 16), g, n),
        9 => run_clear(filled(g, 16), g, n),
        10 => run_sweep(probed(g, 16, 1), g, n),
        11 => run_due(probed(g, 16, 1), g, 1000, n),
        12 => run_due(probed(g, 16, 3), g, 3000, n),
        13 => run_sweep(filled(g, 16), g, n),
        14 => run_push(queued(g, 0), g, n),
        15 => run_release(queued(g, 0), g, n),
        16 => run_orphans(queued(g, 12), filled(g, 16), n),
        17 => run_purge(queued(g, 0), g, n),
        18 => {
            let mut w = world(g, filled(g, 16), PendingQueue::new());
            w.poll(g.base);
            let mut m = small();
            w.advert(0, &mut m, g.base);
            run_advert(w, g, &mut m, n)
        }
        19 => {
            let mut w = taught(g);
            let mut c = filled(g, 15);
            fill(&mut c, (g.iface, IpAddr::V6(router(0))), mac(), at(g.base));
            w.inner.neighbor_cache = c;
            run_advert(w, g, &mut large(), n)
        }
        20 => run_poll(synced(g), g, n),
        21 => {
            let (mut before, after) = (taught(g), synced(g));
            let mut from = after.saved();
            from.slaac = before.saved().slaac;
            before.poll(g.base + 1);
            run_poll_again(before, from, g, n)
        }
        22 => {
            let w = taught(g);
            let from = w.saved();
            run_poll_again(w, from, g, n)
        }
        23 => {
            let w = empty_world(g);
            let from = w.saved();
            run_poll_again(w, from, g, n)
        }
        24 => {
            let mut w = synced(g);
            w.inner.neighbor_cache = filled(g, 16);
            w.inner.pending = queued(g, 0);
            let sum = run_off(w, n);
            driver::take_dropped();
            sum
        }
        30 => run_read(&mut option(1), n),
        31 => run_read(&mut option(2), n),
        32 => run_read(&mut option(3), n),
        33 => run_read(&mut option(4), n),
        34 => run_read(&mut option(5), n),
        35 => run_read(&mut option(31), n),
        36 => run_write(&mut [0; 64], n, 23, |m, i| {
            write_source(m, 16, mac_of(i as u32));
        }),
        37 => run_write(&mut [0; 64], n, 23, |m, i| {
            write_target(m, 16, mac_of(i as u32));
        }),
        38 => run_write(&mut [0; 64], n, 39, |m, i| {
            write_prefix(m, 16, prefix(i % 256));
        }),
        39 => run_write(&mut [0; 64], n, 23, |m, i| {
            write_mtu(m, 16, i as u32);
        }),
        40 => run_solicit(&mut [0; 64], n),
        50 => run_lookup(filled(g, 1), g, 100, n),
        51 => run_lookup(filled(g, 4), g, 100, n),
        52 => run_lookup(filled(g, 8), g, 100, n),
        53 => run_lookup(filled(g, 16), g, 100, n),
        54 => run_start(started(g, 1), g, 0, n),
        55 => run_start(started(g, 4), g, 3, n),
        56 => run_start(started(g, 8), g, 7, n),
        57 => run_start(started(g, 16), g, 15, n),
        58 => run_sweep(probed(g, 1, 1), g, n),
        59 => run_sweep(probed(g, 4, 1), g, n),
        60 => run_sweep(probed(g, 8, 1), g, n),
        61 => run_sweep(probed(g, 16, 1), g, n),
        // What is taken off the cases above.
        70 => run_put_back_cache(filled(g, 16), n),
        71 => run_put_back_queue(queued(g, 0), n),
        72 => run_put_back_slaac(synced(g), n),
        73 => run_config_changed(synced(g), n),
        74 => run_config_changed(empty_world(g), n),
        _ => 0,
    }
}

fn sizes() {
    println!("NeighborCache {}", size_of::<NeighborCache>());
    println!("PendingQueue {}", size_of::<PendingQueue>());
    println!("IfaceAddrs {}", size_of::<StoreVec<IfaceAddr, 8>>());
    println!("Routes {}", size_of::<Routes>());
    println!("Slaac {}", size_of::<Slaac>());
    println!("SlaacState {}", size_of::<SlaacState>());
    println!("Clock {}", size_of::<Clock>());
    println!("Answer {}", size_of::<Answer>());
    println!("Neighbor {}", size_of::<Neighbor>());
    println!("Route {}", size_of::<Route>());
    println!("IfaceAddr {}", size_of::<IfaceAddr>());
    println!("PendingPacket {}", size_of::<PendingPacket>());
    println!("Events {}", size_of::<Events>());
}

fn print(x: u64) {
    let mut line = [0u8; 21];
    let mut v = x;
    for b in line[..20].iter_mut().rev() {
        *b = b'0' + (v % 10) as u8;
        v /= 10;
    }
    line[20] = b'\n';
    std::io::stdout().write_all(&line).unwrap();
}

pub fn main() {
    let mut given = [0u8; 5];
    if std::io::stdin().read_exact(&mut given).is_err() {
        return sizes();
    }
    let digit = |b: u8| u64::from(b - b'0');
    let g = Given {
        iface: IfaceHandle::new(digit(given[3]) as usize),
        base: digit(given[4]) as u32 * 100_000,
    };
    let case = digit(given[0]) * 10 + digit(given[1]);
    if case == 99 {
        for c in 0..75 {
            black_box(run(c, g, 1));
        }
        print(0);
        for c in 0..75 {
            print(run(c, g, 32));
            print(run(c, g, 64));
        }
        return;
    }
    print(run(case, g, 1 << (given[2] - b'a')));
}

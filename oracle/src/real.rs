//! The real code behind the host's checks: refusals by number in document 01's order, 64-bit times.

use crate::calls::{
    Addr, AddrKind, Entry, Event, Header, Held, Lookup, Mac, Next, Phased, Polled, Preferred, Refused, Route, Shown, Side,
    Soliciting, Swept, ToWrite,
};
use crate::range::{Range, link_local};
use xarxa::world::{self, Kept, Phase, RouteError, Solicitor, World};

/// ff02::2
const ALL_ROUTERS: Addr = [0xff, 2, 0, 0, 0, 0, 0, 0, 0, 0, 0, 0, 0, 0, 0, 2];
/// A source of fe80::/64.
const LINK_LOCAL: Addr = [0xfe, 0x80, 0, 0, 0, 0, 0, 0, 0, 0, 0, 0, 0, 0, 0, 1];

/// The largest time that a call takes.
const LATEST: u64 = 1 << 62;

/// All times of a sequence lie within so many ms: the clock's probe takes the last of 2^31 for no deadline.
const SPAN: u64 = (1 << 31) - 1;

pub struct Real {
    world: World,
    range: Range,
    /// The held clock: now and its deadline.
    now: u64,
    deadline: Option<u64>,
}

impl Default for Real {
    fn default() -> Self {
        Real {
            world: World::new([[2, 0, 0, 0, 0, 0]; world::IFACES]),
            range: Range::new(0, SPAN),
            now: 0,
            deadline: None,
        }
    }
}

pub(crate) fn known(iface: u8) -> Result<usize, Refused> {
    if iface > 3 { Err(7) } else { Ok(iface as usize) }
}

fn taken(time: u64) -> Result<u64, Refused> {
    if time > LATEST { Err(3) } else { Ok(time) }
}

fn unicast(addr: Addr) -> Result<(), Refused> {
    if world::is_unicast(addr) { Ok(()) } else { Err(2) }
}

impl Real {
    /// The rule of the Rust's range that the calls since the last `new` left first.
    pub fn outside(&self) -> Option<&str> {
        self.range.outside.as_deref()
    }

    /// Whether they left one other than that of the bits past a prefix length.
    pub fn outside_by_another(&self) -> bool {
        self.range.by_another
    }

    fn outer(&self, t: u32) -> u64 {
        self.range.outer(t)
    }

    /// The clock that a call is lent, as the Rust takes it.
    fn inner(&mut self, now: u64, deadline: Option<u64>) -> (u32, Option<u32>) {
        let deadline = deadline.map(|t| self.range.inner(t));
        (self.range.inner(now), deadline)
    }

    fn shown(&self, s: world::Shown) -> Shown {
        match s {
            world::Shown::Incomplete => Shown::Incomplete,
            world::Shown::Reachable(mac, t) => Shown::Reachable(mac, self.outer(t)),
            world::Shown::Stale(mac) => Shown::Stale(mac),
        }
    }
}

impl Side for Real {
    fn reset(&mut self, mac: Mac, first: u64) {
        *self = Real {
            world: World::new([mac; world::IFACES]),
            range: Range::new(first, SPAN),
            now: first,
            deadline: None,
        };
        // The packets that the world before held.
        self.world.dropped();
    }

    fn clock(&mut self, now: u64, deadline: Option<u64>) {
        self.now = now;
        self.deadline = deadline;
    }

    /// The real clock has the low 32 bits.
    fn now(&mut self) -> u64 {
        assert_eq!(world::clock_now(self.now as u32), self.now as u32);
        self.now
    }

    fn expired(&mut self, time: u64) -> (bool, Option<u64>) {
        let (now, deadline) = self.inner(self.now, self.deadline);
        let time = self.range.inner(time);
        let (expired, deadline) = world::clock_expired(now, deadline, time);
        self.deadline = deadline.map(|t| self.outer(t));
        (expired, self.deadline)
    }

    /// The Rust asserts that the time is after now, as far as it can tell.
    fn schedule(&mut self, time: u64) -> Option<u64> {
        if time <= self.now {
            self.range.leaves("a time that has come is scheduled");
        }
        let (now, deadline) = self.inner(self.now, self.deadline);
        let inner = self.range.inner(time);
        self.deadline = match self.range.outside {
            None => world::clock_schedule(now, deadline, inner).map(|t| self.outer(t)),
            Some(_) => Some(self.deadline.map_or(time, |t| t.min(time))),
        };
        self.deadline
    }

    /// The real addition as far as it goes: a duration of the Rust ends at 2^30 ms, and a time at 2^32. What is added is the same.
    fn later(&mut self, time: u64, millis: u64) -> u64 {
        let added = match u32::try_from(millis) {
            Ok(short) if short <= world::LONGEST => u64::from(world::add(time as u32, short).wrapping_sub(time as u32)),
            _ => millis,
        };
        time.saturating_add(added)
    }

    fn kind(&mut self, addr: Addr) -> AddrKind {
        self.range.address(&addr);
        let kind = world::kind(addr);
        AddrKind {
            unicast: kind.unicast,
            multicast: kind.multicast,
            link_local: kind.link_local,
            unspecified: kind.unspecified,
            all_routers: kind.all_routers,
        }
    }

    fn hardware(&mut self, mac: Mac) -> (bool, [u8; 8]) {
        (world::is_unicast_mac(mac), world::eui_64(mac))
    }

    /// The real `Cidr` ends at 128 bits.
    fn form(&mut self, prefix: Addr, len: u8, mac: Mac) -> Option<Addr> {
        if len > 128 {
            return None;
        }
        world::form(prefix, len, mac)
    }

    /// The real `mask` ends at 128 bits.
    fn mask(&mut self, addr: Addr, len: u8) -> Addr {
        if len > 128 {
            self.range.leaves("mask of more than 128 bits");
            return addr;
        }
        world::mask(addr, len)
    }

    /// The host's comparison with the real EUI-64; the Rust has none.
    fn is_formed(&mut self, addr: Addr, mac: Mac) -> bool {
        addr[8..] == world::eui_64(mac)
    }

    fn header(&mut self, message: &[u8]) -> Result<Header, Refused> {
        let (lifetime, managed, other) = world::advertisement(message).ok_or(5u32)?;
        Ok(Header {
            lifetime,
            managed,
            other,
        })
    }

    /// The host's walk over the real check.
    fn walk(&mut self, message: &[u8], from: usize) -> Option<usize> {
        let mut place = from;
        while place < message.len() {
            match world::read_option(&message[place..]) {
                None => return Some(place),
                Some((_, len, _)) => place += len,
            }
        }
        None
    }

    fn next(&mut self, message: &[u8], place: usize) -> Next {
        if place >= message.len() {
            return Next::End;
        }
        match self.option(&message[place..]) {
            None => Next::Malformed,
            Some((held, _, len)) => Next::Option(held, place + len),
        }
    }

    fn checksum(&mut self, source: Addr, destination: Addr, message: &[u8]) -> u16 {
        world::checksum(source, destination, message)
    }

    fn is_solicitation(&mut self, message: &[u8], destination: Addr) -> bool {
        world::is_solicitation(message, destination)
    }

    fn option(&mut self, bytes: &[u8]) -> Option<(Held, usize, usize)> {
        let (held, len, data) = world::read_option(bytes)?;
        assert_eq!(data, bytes[2..len]);
        let held = match held {
            world::Opt::Lladdr(t, mac) => Held::LinkLayer(t, mac),
            world::Opt::Prefix(len, flags, valid, preferred, prefix) => {
                for at in [4, 8] {
                    let seconds = u32::from_be_bytes(bytes[at..at + 4].try_into().unwrap());
                    self.range.lifetime(seconds.into());
                }
                self.range.bits(&prefix, len);
                Held::Prefix(len, flags, valid.into(), preferred.into(), prefix)
            }
            world::Opt::Mtu(mtu) => Held::Mtu(mtu),
            world::Opt::Other(t) => Held::Other(t),
        };
        Some((held, 2, len))
    }

    fn write(&mut self, message: &mut [u8], place: usize, option: &ToWrite) -> Result<(), Refused> {
        let (option, len) = match *option {
            ToWrite::LinkLayer(t, mac) => (world::Opt::Lladdr(t, mac), 8),
            ToWrite::Prefix(len, flags, valid, preferred, prefix) => {
                (world::Opt::Prefix(len, flags, valid, preferred, prefix), 32)
            }
            ToWrite::Mtu(mtu) => (world::Opt::Mtu(mtu), 8),
        };
        if place > message.len() || message.len() - place < len {
            return Err(4);
        }
        if let world::Opt::Prefix(_, _, valid, preferred, _) = option {
            self.range.lifetime(valid.into());
            self.range.lifetime(preferred.into());
        }
        world::write_option(&mut message[place..], &option);
        Ok(())
    }

    /// What a first poll sends. The Rust sends from fe80::/64 alone: another source is outside, and gets the real checksum.
    fn solicit(&mut self, buffer: &mut [u8], source: Addr, mac: Mac) -> bool {
        let is_source = world::kind(source).link_local;
        let mut world = World::new([mac; world::IFACES]);
        world.push_static(0, if is_source { source } else { LINK_LOCAL }, 64);
        world.set_link(0, true);
        match world.poll(0, 0, None, buffer.len() >= 16).0 {
            world::Poll::Solicit(mut message) => {
                if !is_source {
                    self.range.leaves("a solicitation from a source that is not in fe80::/64");
                    message[2..4].fill(0);
                    let sum = world::checksum(source, ALL_ROUTERS, &message);
                    message[2..4].copy_from_slice(&sum.to_be_bytes());
                }
                buffer[..16].copy_from_slice(&message);
                true
            }
            world::Poll::NoRoom => false,
            _ => unreachable!("the link is up and the source link-local"),
        }
    }

    fn lookup(&mut self, iface: u8, addr: Addr) -> Result<Lookup, Refused> {
        let iface = known(iface)?;
        unicast(addr)?;
        Ok(match self.world.lookup(iface, addr) {
            world::Lookup::Found(mac) => Lookup::Found(mac),
            world::Lookup::Pending => Lookup::Pending,
            world::Lookup::NotFound => Lookup::NotFound,
        })
    }

    fn start(&mut self, iface: u8, addr: Addr) -> Result<(), Refused> {
        let iface = known(iface)?;
        unicast(addr)?;
        self.world.start(iface, addr);
        Ok(())
    }

    fn fill(&mut self, iface: u8, addr: Addr, mac: Mac, now: u64) -> Result<(), Refused> {
        let now = taken(now)?;
        let iface = known(iface)?;
        unicast(addr)?;
        if !world::is_unicast_mac(mac) {
            return Err(2);
        }
        self.range.inner(now + 60_000);
        let now = self.range.inner(now);
        self.world.fill(iface, addr, mac, now);
        Ok(())
    }

    fn insert(&mut self, iface: u8, addr: Addr, mac: Mac, expires: u64) -> Result<(), Refused> {
        let expires = taken(expires)?;
        let iface = known(iface)?;
        // The real call refuses by itself.
        if !self.world.insert(iface, addr, mac, expires as u32) {
            return Err(2);
        }
        self.range.inner(expires);
        Ok(())
    }

    fn get(&mut self, iface: u8, addr: Addr) -> Result<Option<Shown>, Refused> {
        let found = self.world.get(known(iface)?, addr);
        Ok(found.map(|s| self.shown(s)))
    }

    fn remove(&mut self, iface: u8, addr: Addr) -> Result<Option<Shown>, Refused> {
        let gone = self.world.remove(known(iface)?, addr);
        Ok(gone.map(|s| self.shown(s)))
    }

    fn clear(&mut self, iface: u8) -> Result<(), Refused> {
        self.world.clear(known(iface)?);
        Ok(())
    }

    /// A refused one makes no real call.
    fn sweep(&mut self, iface: u8, now: u64, deadline: Option<u64>) -> Swept {
        let (now, iface) = match taken(now).and_then(|now| Ok((now, known(iface)?))) {
            Ok(checked) => checked,
            Err(number) => return Swept::refused(number),
        };
        self.range.inner(now + 1_000);
        let (now, deadline) = self.inner(now, deadline);
        let entries = self.world.entries().len();
        let swept = self.world.sweep(iface, now, deadline);
        let calls = swept.calls;
        assert!(calls <= entries + 1, "{calls} calls for events over {entries} entries, at most one for each and one that finds none");
        let events = swept.events.into_iter().map(|e| match e {
            world::Event::Retransmit(addr) => Event::Retransmit(addr),
            world::Event::Failed(addr) => Event::Failed(addr),
        });
        Swept {
            looked: swept.looked,
            answer: Ok((events.collect(), swept.deadline.map(|t| self.outer(t)))),
        }
    }

    fn cache(&mut self) -> Vec<(u8, Addr, Entry)> {
        let entry = |(iface, addr, state): (usize, Addr, world::State)| {
            let state = match state {
                world::State::Started => Entry::Started,
                world::State::Incomplete(probes, due) => Entry::Incomplete(probes, self.outer(due)),
                world::State::Reachable(mac, t) => Entry::Reachable(mac, self.outer(t)),
                world::State::Stale(mac) => Entry::Stale(mac),
            };
            (iface as u8, addr, state)
        };
        self.world.entries().into_iter().map(entry).collect()
    }

    fn neighbors(&mut self) -> Vec<(u8, Addr, Shown)> {
        let entry = |(iface, addr, state): (usize, Addr, world::Shown)| (iface as u8, addr, self.shown(state));
        self.world.neighbors().into_iter().map(entry).collect()
    }

    fn push(&mut self, iface: u8, addr: Addr, handle: u32) -> Result<Option<u32>, Refused> {
        let dropped = self.world.push(known(iface)?, addr, handle);
        assert!(dropped.len() <= 1);
        Ok(dropped.first().copied())
    }

    fn release(&mut self, iface: u8, addr: Addr) -> Result<Option<u32>, Refused> {
        Ok(self.world.pop(known(iface)?, addr))
    }

    fn orphans(&mut self) -> Vec<u32> {
        self.world.purge_orphans()
    }

    fn purge(&mut self, iface: u8) -> Result<Vec<u32>, Refused> {
        Ok(self.world.purge_iface(known(iface)?))
    }

    fn queue(&mut self) -> Vec<(u8, Addr, u32)> {
        let entry = |(iface, addr, handle): (usize, Addr, u32)| (iface as u8, addr, handle);
        self.world.waiting().into_iter().map(entry).collect()
    }

    fn add_address(&mut self, iface: u8, addr: Addr, len: u64) -> Result<(), Refused> {
        let iface = known(iface)?;
        if len > 128 {
            return Err(14);
        }
        let len = len as u8;
        if self.world.addresses(iface).iter().any(|(a, l, ..)| (*a, *l) == (addr, len)) {
            return Err(9);
        }
        if !self.world.push_static(iface, addr, len) {
            return Err(8);
        }
        self.range.address(&addr);
        Ok(())
    }

    fn source(&mut self, iface: u8) -> Result<Option<Addr>, Refused> {
        Ok(self.world.source(known(iface)?))
    }

    fn add_route(&mut self, iface: u8, prefix: Addr, len: u64, via: Addr) -> Result<(), Refused> {
        let known = known(iface)?;
        if len > 128 {
            return Err(14);
        }
        let len = len as u8;
        let same = |r: &Route| !r.slaac && (r.iface, r.prefix, r.len, r.via) == (iface, prefix, len, via);
        if self.routes().iter().any(same) {
            return Err(9);
        }
        match self.world.add_route(known, prefix, len, via) {
            Ok(()) => Ok(()),
            Err(RouteError::Full) => Err(8),
            Err(RouteError::NotUnicast) => {
                self.range.leaves("a route by a router that is not unicast");
                Ok(())
            }
        }
    }

    fn link(&mut self, iface: u8, up: bool) -> Result<(), Refused> {
        self.world.set_link(known(iface)?, up);
        Ok(())
    }

    fn restart(&mut self, iface: u8) -> Result<(), Refused> {
        self.world.restart(known(iface)?);
        Ok(())
    }

    /// The real `set_slaac` starts afresh when SLAAC is on; document 01 has it do nothing then.
    fn turn_on(&mut self, iface: u8) -> Result<(), Refused> {
        let iface = known(iface)?;
        if !self.world.is_on(iface) {
            self.world.turn_on(iface);
        }
        Ok(())
    }

    fn turn_off(&mut self, iface: u8) -> Result<Vec<u32>, Refused> {
        Ok(self.world.turn_off(known(iface)?))
    }

    fn advertise(&mut self, iface: u8, source: Addr, now: u64, message: &[u8]) -> Result<bool, Refused> {
        let now = taken(now)?;
        let iface = known(iface)?;
        if !self.world.is_on(iface) {
            return Ok(false);
        }
        if !world::is_advertisement(message) {
            return Err(5);
        }
        if !link_local(&source) {
            return Err(6);
        }
        let inner = self.range.inner(now);
        match self.world.advertise(iface, source, message, inner) {
            world::Advert::Taken => {
                self.range.advertisement(now, message);
                Ok(true)
            }
            world::Advert::Off => Ok(false),
            world::Advert::Malformed => Err(1),
        }
    }

    fn poll(
        &mut self,
        iface: u8,
        now: u64,
        deadline: Option<u64>,
        room: u64,
    ) -> Result<(Polled, Option<u64>), Refused> {
        let now = taken(now)?;
        let iface = known(iface)?;
        if !self.world.is_on(iface) {
            return Ok((Polled::Off, deadline));
        }
        self.range.inner(now + 4_000);
        let (now, deadline) = self.inner(now, deadline);
        let (polled, deadline) = self.world.poll(iface, now, deadline, room >= 16);
        let polled = match polled {
            world::Poll::Off => Polled::Off,
            world::Poll::Nothing => Polled::Nothing,
            world::Poll::NoRoom => Polled::NoRoom,
            world::Poll::Solicit(message) => Polled::Solicit(message),
        };
        Ok((polled, deadline.map(|t| self.outer(t))))
    }

    fn soliciting(&mut self, iface: u8) -> Result<Option<Soliciting>, Refused> {
        let Some(Solicitor {
            phase,
            left,
            sync,
            seen,
            managed,
            other,
        }) = self.world.solicitor(known(iface)?)
        else {
            return Ok(None);
        };
        let phase = match phase {
            Phase::Start => Phased::Start,
            Phase::Discovering(t) => Phased::Discovering(self.outer(t)),
            Phase::Maintaining => Phased::Maintaining,
            Phase::None => unreachable!("a solicitation is never sent with none left"),
        };
        Ok(Some(Soliciting {
            phase,
            left,
            sync,
            seen,
            managed,
            other,
        }))
    }

    fn prefixes(&mut self, iface: u8) -> Result<Vec<(Addr, u8, Option<u64>, Option<u64>)>, Refused> {
        let entry = |(p, len, preferred, valid)| (p, len, Some(self.outer(preferred)), Some(self.outer(valid)));
        Ok(self.world.prefixes(known(iface)?).into_iter().map(entry).collect())
    }

    fn routers(&mut self, iface: u8) -> Result<Vec<(Addr, u64)>, Refused> {
        let entry = |(r, t)| (r, self.outer(t));
        Ok(self.world.routers(known(iface)?).into_iter().map(entry).collect())
    }

    fn addresses(&mut self, iface: u8) -> Result<Vec<(Addr, u8, bool, Preferred)>, Refused> {
        let entry = |(a, len, slaac, kept)| {
            let preferred = match kept {
                Kept::Always => Preferred::Always,
                Kept::Until(t) => Preferred::Until(Some(self.outer(t))),
                Kept::Never => Preferred::Never,
            };
            (a, len, slaac, preferred)
        };
        Ok(self.world.addresses(known(iface)?).into_iter().map(entry).collect())
    }

    fn routes(&mut self) -> Vec<Route> {
        let entry = |(iface, prefix, len, via, slaac, t): (usize, Addr, u8, Addr, bool, Option<u32>)| Route {
            iface: iface as u8,
            prefix,
            len,
            via,
            slaac,
            until: t.map(|t| self.outer(t)),
        };
        self.world.routes().into_iter().map(entry).collect()
    }
}

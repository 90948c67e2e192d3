//! The model's side.

use crate::calls::{
    Addr, AddrKind, Entry, Event, Header, Held, Lookup, Mac, Next, Phased, Polled, Preferred, Refused, Route, Shown, Side,
    Soliciting, Swept, ToWrite,
};
use crate::real::known;
use model::mark;

/// The model, and the held clock.
pub struct Modelled(pub model::Model, pub model::Clock);

impl Default for Modelled {
    fn default() -> Self {
        Modelled(model::Model::new(0x0200_0000_0000), model::Clock::at(0))
    }
}

fn big(addr: Addr) -> model::Addr {
    model::Addr::from_be_bytes(addr)
}

fn big_mac(mac: Mac) -> model::Mac {
    mac.iter().fold(0, |n, b| n << 8 | u64::from(*b))
}

fn small_mac(mac: model::Mac) -> Mac {
    mac.to_be_bytes()[2..].try_into().unwrap()
}

fn done<T>(answer: model::Answer<T>) -> Result<T, Refused> {
    match answer {
        model::Answer::Done(t) => Ok(t),
        model::Answer::Refused(n) => Err(n),
        model::Answer::Off => unreachable!("not a call that answers Off"),
    }
}

fn listed(state: model::State) -> Shown {
    match state {
        model::State::Started | model::State::Incomplete { .. } => Shown::Incomplete,
        model::State::Reachable { mac, until } => Shown::Reachable(small_mac(mac), until),
        model::State::Stale { mac } => Shown::Stale(small_mac(mac)),
    }
}

/// What an option of this type holds.
fn held(kind: u8, o: &[u8]) -> Held {
    let n = |from: usize, to: usize| o[from..to].iter().fold(0u128, |n, b| n << 8 | u128::from(*b));
    match kind {
        1 | 2 => Held::LinkLayer(kind, small_mac(n(2, 8) as u64)),
        3 => Held::Prefix(o[2], o[3] & 0xc0, n(4, 8) as u64 * 1000, n(8, 12) as u64 * 1000, model::prefix_of(o).to_be_bytes()),
        5 => Held::Mtu(n(4, 8) as u32),
        _ => Held::Other(kind),
    }
}

impl Side for Modelled {
    fn marks(&self) -> bool {
        true
    }

    fn reset(&mut self, mac: Mac, first: u64) {
        self.0 = model::Model::new(big_mac(mac));
        self.1 = model::Clock::at(first);
    }

    fn clock(&mut self, now: u64, deadline: Option<u64>) {
        self.1 = model::Clock { now, deadline };
    }

    fn now(&mut self) -> u64 {
        self.1.now
    }

    fn expired(&mut self, time: u64) -> (bool, Option<u64>) {
        let expired = self.1.ask(time);
        (expired, self.1.deadline)
    }

    fn schedule(&mut self, time: u64) -> Option<u64> {
        self.1.join(time);
        self.1.deadline
    }

    fn later(&mut self, time: u64, millis: u64) -> u64 {
        model::later(time, millis)
    }

    fn kind(&mut self, addr: Addr) -> AddrKind {
        let addr = big(addr);
        model::mark_kind(addr);
        AddrKind {
            unicast: model::is_unicast(addr),
            multicast: model::is_multicast(addr),
            link_local: model::is_link_local(addr),
            unspecified: addr == 0,
            all_routers: addr == model::ALL_ROUTERS,
        }
    }

    fn hardware(&mut self, mac: Mac) -> (bool, [u8; 8]) {
        let (unicast, eui) = model::hardware(big_mac(mac));
        (unicast, eui.to_be_bytes())
    }

    fn form(&mut self, prefix: Addr, len: u8, mac: Mac) -> Option<Addr> {
        model::form(big(prefix), len, big_mac(mac)).map(|addr| addr.to_be_bytes())
    }

    fn mask(&mut self, addr: Addr, len: u8) -> Addr {
        model::mask(big(addr), len).to_be_bytes()
    }

    fn is_formed(&mut self, addr: Addr, mac: Mac) -> bool {
        model::is_formed(big(addr), big_mac(mac))
    }

    fn header(&mut self, message: &[u8]) -> Result<Header, Refused> {
        let (lifetime, managed, other) = done(model::header(message))?;
        Ok(Header {
            lifetime,
            managed,
            other,
        })
    }

    fn walk(&mut self, message: &[u8], from: usize) -> Option<usize> {
        model::walk(message, from)
    }

    fn next(&mut self, message: &[u8], place: usize) -> Next {
        match model::next(message, place) {
            model::Next::End => Next::End,
            model::Next::Malformed => Next::Malformed,
            model::Next::Option(kind, option) => Next::Option(held(kind, option), place + option.len()),
        }
    }

    fn checksum(&mut self, source: Addr, destination: Addr, message: &[u8]) -> u16 {
        model::checksum_of(big(source), big(destination), message)
    }

    fn is_solicitation(&mut self, message: &[u8], destination: Addr) -> bool {
        model::is_solicitation(message, big(destination))
    }

    fn option(&mut self, bytes: &[u8]) -> Option<(Held, usize, usize)> {
        let (kind, option) = model::read_option(bytes)?;
        Some((held(kind, option), 2, option.len()))
    }

    fn write(&mut self, message: &mut [u8], place: usize, option: &ToWrite) -> Result<(), Refused> {
        let bytes = match *option {
            ToWrite::LinkLayer(kind, mac) => [&[kind, 1][..], &mac].concat(),
            ToWrite::Prefix(len, flags, valid, preferred, prefix) => [
                &[3, 4, len, flags & 0xc0][..],
                &valid.to_be_bytes(),
                &preferred.to_be_bytes(),
                &[0; 4],
                &prefix,
            ]
            .concat(),
            ToWrite::Mtu(mtu) => [&[5, 1, 0, 0][..], &mtu.to_be_bytes()].concat(),
        };
        if model::write_at(message, place, &bytes) { Ok(()) } else { Err(4) }
    }

    fn solicit(&mut self, buffer: &mut [u8], source: Addr, mac: Mac) -> bool {
        let Some(front) = buffer.get_mut(..16) else {
            return false;
        };
        if !model::is_link_local(big(source)) {
            mark!("calls.wide-solicit-from-any-source");
        }
        front.copy_from_slice(&model::solicitation(big(source), big_mac(mac)));
        true
    }

    fn lookup(&mut self, iface: u8, addr: Addr) -> Result<Lookup, Refused> {
        Ok(match done(self.0.lookup(iface as usize, big(addr)))? {
            model::Found::Found(mac) => Lookup::Found(small_mac(mac)),
            model::Found::Pending => Lookup::Pending,
            model::Found::NotFound => Lookup::NotFound,
        })
    }

    fn start(&mut self, iface: u8, addr: Addr) -> Result<(), Refused> {
        done(self.0.start(iface as usize, big(addr)))
    }

    fn fill(&mut self, iface: u8, addr: Addr, mac: Mac, now: u64) -> Result<(), Refused> {
        done(self.0.fill(iface as usize, big(addr), big_mac(mac), now))
    }

    fn insert(&mut self, iface: u8, addr: Addr, mac: Mac, expires: u64) -> Result<(), Refused> {
        done(self.0.insert(iface as usize, big(addr), big_mac(mac), expires))
    }

    fn get(&mut self, iface: u8, addr: Addr) -> Result<Option<Shown>, Refused> {
        Ok(done(self.0.get(iface as usize, big(addr)))?.map(listed))
    }

    fn remove(&mut self, iface: u8, addr: Addr) -> Result<Option<Shown>, Refused> {
        Ok(done(self.0.remove(iface as usize, big(addr)))?.map(listed))
    }

    fn clear(&mut self, iface: u8) -> Result<(), Refused> {
        done(self.0.clear(iface as usize))
    }

    fn sweep(&mut self, iface: u8, now: u64, deadline: Option<u64>) -> Swept {
        let mut clock = model::Clock { now, deadline };
        let swept = self.0.sweep(iface as usize, &mut clock);
        let event = |e| match e {
            model::Probe::Retransmit(addr) => Event::Retransmit(addr.to_be_bytes()),
            model::Probe::Failed(addr) => Event::Failed(addr.to_be_bytes()),
        };
        let answer = done(swept.answer).map(|events| (events.into_iter().map(event).collect(), clock.deadline));
        Swept {
            looked: swept.looked,
            answer,
        }
    }

    fn cache(&mut self) -> Vec<(u8, Addr, Entry)> {
        let entry = |n: &model::Neighbour| {
            let state = match n.state {
                model::State::Started => Entry::Started,
                model::State::Incomplete { probes, due } => Entry::Incomplete(probes, due),
                model::State::Reachable { mac, until } => Entry::Reachable(small_mac(mac), until),
                model::State::Stale { mac } => Entry::Stale(small_mac(mac)),
            };
            (n.iface as u8, n.addr.to_be_bytes(), state)
        };
        self.0.neighbours.iter().map(entry).collect()
    }

    fn neighbors(&mut self) -> Vec<(u8, Addr, Shown)> {
        let entry = |n: &model::Neighbour| (n.iface as u8, n.addr.to_be_bytes(), listed(n.state));
        self.0.listing().iter().map(entry).collect()
    }

    fn push(&mut self, iface: u8, addr: Addr, handle: u32) -> Result<Option<u32>, Refused> {
        done(self.0.push(iface as usize, big(addr), handle))
    }

    fn release(&mut self, iface: u8, addr: Addr) -> Result<Option<u32>, Refused> {
        done(self.0.release(iface as usize, big(addr)))
    }

    fn orphans(&mut self) -> Vec<u32> {
        self.0.purge_orphans()
    }

    fn purge(&mut self, iface: u8) -> Result<Vec<u32>, Refused> {
        done(self.0.purge_iface(iface as usize))
    }

    fn queue(&mut self) -> Vec<(u8, Addr, u32)> {
        let entry = |p: &model::Packet| (p.iface as u8, p.addr.to_be_bytes(), p.handle);
        self.0.packets.iter().map(entry).collect()
    }

    fn add_address(&mut self, iface: u8, addr: Addr, len: u64) -> Result<(), Refused> {
        done(self.0.add_address(iface as usize, big(addr), len))
    }

    fn source(&mut self, iface: u8) -> Result<Option<Addr>, Refused> {
        Ok(done(self.0.source(iface as usize))?.map(|addr| addr.to_be_bytes()))
    }

    fn add_route(&mut self, iface: u8, prefix: Addr, len: u64, via: Addr) -> Result<(), Refused> {
        done(self.0.add_route(iface as usize, big(prefix), len, big(via)))
    }

    fn link(&mut self, iface: u8, up: bool) -> Result<(), Refused> {
        self.0.set_link(known(iface)?, up);
        Ok(())
    }

    fn restart(&mut self, iface: u8) -> Result<(), Refused> {
        self.0.restart(known(iface)?);
        Ok(())
    }

    fn turn_on(&mut self, iface: u8) -> Result<(), Refused> {
        self.0.turn_on(known(iface)?);
        Ok(())
    }

    fn turn_off(&mut self, iface: u8) -> Result<Vec<u32>, Refused> {
        Ok(self.0.turn_off(known(iface)?))
    }

    fn advertise(&mut self, iface: u8, source: Addr, now: u64, message: &[u8]) -> Result<bool, Refused> {
        match self.0.advertise(iface as usize, now, big(source), message) {
            model::Answer::Done(()) => Ok(true),
            model::Answer::Off => Ok(false),
            model::Answer::Refused(n) => Err(n),
        }
    }

    fn poll(
        &mut self,
        iface: u8,
        now: u64,
        deadline: Option<u64>,
        room: u64,
    ) -> Result<(Polled, Option<u64>), Refused> {
        let mut clock = model::Clock { now, deadline };
        let polled = match self.0.poll(iface as usize, &mut clock, room >= 16) {
            model::Answer::Off => Polled::Off,
            model::Answer::Refused(n) => return Err(n),
            model::Answer::Done(model::Sent::Nothing) => Polled::Nothing,
            model::Answer::Done(model::Sent::NoRoom) => Polled::NoRoom,
            model::Answer::Done(model::Sent::Solicit(message)) => Polled::Solicit(message.to_vec()),
        };
        Ok((polled, clock.deadline))
    }

    fn soliciting(&mut self, iface: u8) -> Result<Option<Soliciting>, Refused> {
        let slaac = &self.0.ifaces[known(iface)?].slaac;
        Ok(slaac.as_ref().map(|s| Soliciting {
            phase: match s.phase {
                model::Phase::Start => Phased::Start,
                model::Phase::Discovering { retry } => Phased::Discovering(retry),
                model::Phase::Maintaining => Phased::Maintaining,
            },
            left: s.left,
            sync: s.sync,
            seen: s.seen,
            managed: s.managed,
            other: s.other,
        }))
    }

    fn prefixes(&mut self, iface: u8) -> Result<Vec<(Addr, u8, Option<u64>, Option<u64>)>, Refused> {
        let entry = |p: &model::Prefix| (p.addr.to_be_bytes(), p.len, p.preferred, p.valid);
        let slaac = &self.0.ifaces[known(iface)?].slaac;
        Ok(slaac.iter().flat_map(|s| s.prefixes.iter().map(entry)).collect())
    }

    fn routers(&mut self, iface: u8) -> Result<Vec<(Addr, u64)>, Refused> {
        let entry = |r: &model::Router| (r.addr.to_be_bytes(), r.until);
        let slaac = &self.0.ifaces[known(iface)?].slaac;
        Ok(slaac.iter().flat_map(|s| s.routers.iter().map(entry)).collect())
    }

    fn addresses(&mut self, iface: u8) -> Result<Vec<(Addr, u8, bool, Preferred)>, Refused> {
        let entry = |a: &model::Address| {
            let preferred = match a.preferred {
                model::Preferred::Always => Preferred::Always,
                model::Preferred::Until(t) => Preferred::Until(t),
                model::Preferred::Never => Preferred::Never,
            };
            (a.addr.to_be_bytes(), a.len, a.slaac, preferred)
        };
        Ok(self.0.ifaces[known(iface)?].addrs.iter().map(entry).collect())
    }

    fn routes(&mut self) -> Vec<Route> {
        let entry = |r: &model::Route| Route {
            iface: r.iface as u8,
            prefix: r.prefix.to_be_bytes(),
            len: r.len,
            via: r.via.to_be_bytes(),
            slaac: r.slaac,
            until: r.until,
        };
        self.0.routes.iter().map(entry).collect()
    }
}

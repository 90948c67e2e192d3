//! The event program of document 01 over the real code.
//!
//! `Outcome::outside` says when a file leaves the range in which the Rust is exact (`range.rs`).

use std::fmt::Write;

use crate::range::{Range, link_local};
use crate::text;
use xarxa::world::{self, Advert, Event, Kept, Poll, Shown, World};

/// The longest line, without its newline.
pub const LINE: usize = 4096;
/// The largest time that a call takes.
pub const LATEST: u64 = 1 << 62;
/// Room for addresses.
const ADDRESSES: usize = 8;
/// All times of a file lie within so many ms.
const SPAN: u64 = 1 << 31;

pub struct Outcome {
    pub output: String,
    /// The rule of the range that the file leaves first, and on which line, if it does.
    pub outside: Option<String>,
    /// Whether it leaves one other than that of the bits past a prefix length.
    pub outside_by_another: bool,
}

/// A line that ends the output.
struct Bad;

struct Lines<'a> {
    rest: Option<&'a [u8]>,
    /// The number of the line handed out last.
    number: usize,
}

impl<'a> Lines<'a> {
    fn new(input: &'a [u8]) -> Self {
        Lines {
            rest: if input.is_empty() { None } else { Some(input) },
            number: 0,
        }
    }

    /// The next line, or none after the last. Its number counts either way.
    fn take(&mut self) -> Option<&'a [u8]> {
        self.number += 1;
        let rest = self.rest?;
        match rest.iter().position(|b| *b == b'\n') {
            Some(end) => {
                self.rest = if end + 1 < rest.len() { Some(&rest[end + 1..]) } else { None };
                Some(&rest[..end])
            }
            None => {
                self.rest = None;
                Some(rest)
            }
        }
    }

    /// The fields of the next line.
    fn fields(&mut self) -> Result<Vec<&'a [u8]>, Bad> {
        let line = self.take().ok_or(Bad)?;
        if line.len() > LINE {
            return Err(Bad);
        }
        Ok(line.split(|b| *b == b' ').collect())
    }

    /// A line `word count`.
    fn count(&mut self, word: &[u8]) -> Result<u64, Bad> {
        match self.fields()?[..] {
            [w, n] if w == word => text::number(n).ok_or(Bad),
            _ => Err(Bad),
        }
    }
}

/// The smallest time that a call of the file takes.
fn first_time(input: &[u8]) -> u64 {
    let mut first = None;
    for line in input.split(|b| *b == b'\n') {
        let mut fields = line.split(|b| *b == b' ');
        let (Some(time), Some(kind)) = (fields.next(), fields.next()) else {
            continue;
        };
        if ![&b"poll"[..], b"ra", b"sweep", b"fill"].contains(&kind) {
            continue;
        }
        if let Some(t) = text::number(time)
            && t <= LATEST
            && first.is_none_or(|f| t < f)
        {
            first = Some(t);
        }
    }
    first.unwrap_or(0)
}

struct Host<'a> {
    lines: Lines<'a>,
    world: World,
    range: Range,
    /// The rule that the file leaves first, and on which line.
    outside: Option<String>,
    out: String,
}

pub fn run(input: &[u8]) -> Outcome {
    let mut host = Host {
        lines: Lines::new(input),
        world: World::new([[2, 0, 0, 0, 0, 0]; world::IFACES]),
        range: Range::new(first_time(input), SPAN),
        outside: None,
        out: String::new(),
    };
    match host.program() {
        Ok(()) => host.state(),
        Err(Bad) => writeln!(host.out, "bad line {}", host.lines.number).unwrap(),
    }
    Outcome {
        output: host.out,
        outside: host.outside,
        outside_by_another: host.range.by_another,
    }
}

impl Host<'_> {
    /// Whether the file left the range on this line.
    fn look(&mut self) {
        if let Some(rule) = self.range.outside.take()
            && self.outside.is_none()
        {
            self.outside = Some(format!("{rule} (line {})", self.lines.number));
        }
    }

    fn program(&mut self) -> Result<(), Bad> {
        let mac = match self.lines.fields()?[..] {
            [b"mac", mac] => text::fixed(mac).ok_or(Bad)?,
            _ => return Err(Bad),
        };
        self.world = World::new([mac; world::IFACES]);
        let addresses = self.lines.count(b"addresses")?;
        for _ in 0..addresses {
            self.address()?;
            self.look();
        }
        let events = self.lines.count(b"events")?;
        for _ in 0..events {
            self.event()?;
            self.look();
        }
        if self.lines.take().is_some() {
            return Err(Bad);
        }
        Ok(())
    }

    /// An application's address: numbers 14, 9 and 8 make the line bad.
    fn address(&mut self) -> Result<(), Bad> {
        let (addr, len) = match self.lines.fields()?[..] {
            [addr, len] => (text::fixed(addr).ok_or(Bad)?, text::number(len).ok_or(Bad)?),
            _ => return Err(Bad),
        };
        let table = self.world.addresses(0);
        if len > 128 || table.iter().any(|(a, l, ..)| (*a, u64::from(*l)) == (addr, len)) || table.len() >= ADDRESSES {
            return Err(Bad);
        }
        self.range.address(&addr);
        assert!(self.world.push_static(0, addr, len as u8));
        Ok(())
    }

    fn event(&mut self) -> Result<(), Bad> {
        let fields = self.lines.fields()?;
        let time = text::number(fields[0]).ok_or(Bad)?;
        match fields[1..] {
            [b"up"] => {
                self.world.set_link(0, true);
                self.world.restart(0);
            }
            [b"down"] => self.world.set_link(0, false),
            [b"poll"] => self.poll(time),
            [b"ra", source, message] => {
                let source = text::fixed(source).ok_or(Bad)?;
                let message = text::bytes(message).ok_or(Bad)?;
                self.advertisement(time, source, &message);
            }
            [b"start", addr] => {
                let addr = text::fixed(addr).ok_or(Bad)?;
                if !world::is_unicast(addr) {
                    self.refused(time, 2);
                } else {
                    self.world.start(0, addr);
                }
            }
            [b"sweep"] => self.sweep(time),
            [b"fill", addr, mac] => {
                let addr = text::fixed(addr).ok_or(Bad)?;
                let mac = text::fixed(mac).ok_or(Bad)?;
                if time > LATEST {
                    self.refused(time, 3);
                } else if !world::is_unicast(addr) || !world::is_unicast_mac(mac) {
                    self.refused(time, 2);
                } else {
                    self.range.inner(time + 60_000);
                    let now = self.range.inner(time);
                    self.world.fill(0, addr, mac, now);
                }
            }
            [b"remove", addr] => {
                let addr = text::fixed(addr).ok_or(Bad)?;
                self.world.remove(0, addr);
            }
            [b"off"] => {
                self.world.turn_off(0);
            }
            _ => return Err(Bad),
        }
        Ok(())
    }

    fn refused(&mut self, time: u64, number: u32) {
        writeln!(self.out, "{time} refused {number}").unwrap();
    }

    fn poll(&mut self, time: u64) {
        if time > LATEST {
            return self.refused(time, 3);
        }
        self.range.inner(time + 4_000);
        let now = self.range.inner(time);
        match self.world.poll(0, now, None, true).0 {
            Poll::Off => writeln!(self.out, "{time} off").unwrap(),
            Poll::Nothing => {}
            Poll::Solicit(message) => writeln!(self.out, "{time} solicit {}", text::hex(&message)).unwrap(),
            Poll::NoRoom => unreachable!("the buffer has room"),
        }
    }

    fn advertisement(&mut self, time: u64, source: [u8; 16], message: &[u8]) {
        if time > LATEST {
            return self.refused(time, 3);
        }
        if !self.world.is_on(0) {
            writeln!(self.out, "{time} off").unwrap();
            return;
        }
        if !world::is_advertisement(message) {
            return self.refused(time, 5);
        }
        if !link_local(&source) {
            return self.refused(time, 6);
        }
        let now = self.range.inner(time);
        match self.world.advertise(0, source, message, now) {
            Advert::Off => unreachable!("SLAAC is on"),
            Advert::Taken => self.range.advertisement(time, message),
            Advert::Malformed => self.refused(time, 1),
        }
    }

    fn sweep(&mut self, time: u64) {
        if time > LATEST {
            return self.refused(time, 3);
        }
        self.range.inner(time + 1_000);
        let now = self.range.inner(time);
        for event in self.world.sweep(0, now, None).events {
            match event {
                Event::Retransmit(addr) => writeln!(self.out, "{time} retransmit {}", text::hex(&addr)).unwrap(),
                Event::Failed(addr) => writeln!(self.out, "{time} failed {}", text::hex(&addr)).unwrap(),
            }
        }
    }

    fn state(&mut self) {
        let (out, times, world) = (&mut self.out, &self.range, &self.world);
        let prefixes = world.prefixes(0);
        writeln!(out, "prefixes {}", prefixes.len()).unwrap();
        for (prefix, len, preferred, valid) in prefixes {
            let (preferred, valid) = (times.outer(preferred), times.outer(valid));
            writeln!(out, "{} {len} {preferred} {valid}", text::hex(&prefix)).unwrap();
        }
        let routers = world.routers(0);
        writeln!(out, "routers {}", routers.len()).unwrap();
        for (router, expiry) in routers {
            writeln!(out, "{} {}", text::hex(&router), times.outer(expiry)).unwrap();
        }
        let addresses = world.addresses(0);
        writeln!(out, "addresses {}", addresses.len()).unwrap();
        for (addr, len, slaac, kept) in addresses {
            let origin = if slaac { "slaac" } else { "static" };
            let kept = match kept {
                Kept::Always => "-".to_string(),
                Kept::Until(t) => times.outer(t).to_string(),
                Kept::Never => "never".to_string(),
            };
            writeln!(out, "{} {len} {origin} {kept}", text::hex(&addr)).unwrap();
        }
        let routes = world.routes();
        writeln!(out, "routes {}", routes.len()).unwrap();
        for (_, _, _, via, slaac, expiry) in routes {
            let origin = if slaac { "slaac" } else { "static" };
            let expiry = expiry.map_or("-".to_string(), |t| times.outer(t).to_string());
            writeln!(out, "{} {origin} {expiry}", text::hex(&via)).unwrap();
        }
        let neighbors = world.neighbors();
        writeln!(out, "neighbors {}", neighbors.len()).unwrap();
        for (_, addr, state) in neighbors {
            let addr = text::hex(&addr);
            match state {
                Shown::Incomplete => writeln!(out, "{addr} incomplete - -").unwrap(),
                Shown::Reachable(mac, t) => {
                    writeln!(out, "{addr} reachable {} {}", text::hex(&mac), times.outer(t)).unwrap()
                }
                Shown::Stale(mac) => writeln!(out, "{addr} stale {} -", text::hex(&mac)).unwrap(),
            }
        }
    }
}

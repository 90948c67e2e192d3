//! Single calls, one line in and one line out: what the event program does not reach. See README.md for the lines.
//!
//! `Side` is what is driven. There are two: the real code behind the host's checks (`real.rs`), and the model (`modelled.rs`).

use std::fmt::Write;

use crate::events::LINE;
pub use crate::modelled::Modelled;
pub use crate::real::Real;
use crate::text;
use crate::turns::{self, Input};
use model::mark;

pub type Addr = [u8; 16];
pub type Mac = [u8; 6];

/// A refusal by number.
pub type Refused = u32;

#[derive(Debug, Clone, PartialEq, Eq)]
pub enum Held {
    /// Type 1 or 2, and the hardware address.
    LinkLayer(u8, Mac),
    /// Length, flags, valid and preferred lifetime in ms, prefix.
    Prefix(u8, u8, u64, u64, Addr),
    Mtu(u32),
    Other(u8),
}

/// An option to write: type, length and flags as given, lifetimes in seconds.
#[derive(Debug, Clone, PartialEq, Eq)]
pub enum ToWrite {
    LinkLayer(u8, Mac),
    Prefix(u8, u8, u32, u32, Addr),
    Mtu(u32),
}

#[derive(Debug, Clone, Copy, PartialEq, Eq)]
pub enum Lookup {
    Found(Mac),
    Pending,
    NotFound,
}

#[derive(Debug, Clone, Copy, PartialEq, Eq)]
pub enum Entry {
    Started,
    /// Probes, due.
    Incomplete(u8, u64),
    Reachable(Mac, u64),
    Stale(Mac),
}

#[derive(Debug, Clone, Copy, PartialEq, Eq)]
pub enum Shown {
    Incomplete,
    Reachable(Mac, u64),
    Stale(Mac),
}

#[derive(Debug, Clone, Copy, PartialEq, Eq)]
pub enum Event {
    Retransmit(Addr),
    Failed(Addr),
}

/// What a sweep came to.
#[derive(Debug, Clone, PartialEq, Eq)]
pub struct Swept {
    /// The entries that its probe part looked at; none if it was refused.
    pub looked: usize,
    /// The events, and the clock's deadline afterwards.
    pub answer: Result<(Vec<Event>, Option<u64>), Refused>,
}

impl Swept {
    pub(crate) fn refused(number: Refused) -> Swept {
        Swept {
            looked: 0,
            answer: Err(number),
        }
    }
}

#[derive(Debug, Clone, PartialEq, Eq)]
pub enum Polled {
    Off,
    Nothing,
    Solicit(Vec<u8>),
    NoRoom,
}

#[derive(Debug, Clone, Copy, PartialEq, Eq)]
pub enum Preferred {
    Always,
    Until(Option<u64>),
    Never,
}

#[derive(Debug, Clone, Copy, PartialEq, Eq)]
pub enum Phased {
    Start,
    Discovering(u64),
    Maintaining,
}

#[derive(Debug, Clone, Copy, PartialEq, Eq)]
pub struct Soliciting {
    pub phase: Phased,
    pub left: u8,
    pub sync: bool,
    pub seen: bool,
    pub managed: bool,
    pub other: bool,
}

/// What kind of address it is.
#[derive(Debug, Clone, Copy, PartialEq, Eq)]
pub struct AddrKind {
    pub unicast: bool,
    pub multicast: bool,
    pub link_local: bool,
    pub unspecified: bool,
    pub all_routers: bool,
}

/// The header of an advertisement; the lifetime is in seconds.
#[derive(Debug, Clone, Copy, PartialEq, Eq)]
pub struct Header {
    pub lifetime: u32,
    pub managed: bool,
    pub other: bool,
}

/// What stands at a place of a message.
#[derive(Debug, Clone, PartialEq, Eq)]
pub enum Next {
    End,
    Malformed,
    /// What the option holds, and the place behind it.
    Option(Held, usize),
}

pub trait Side {
    /// Whether the rules that fire are marked.
    fn marks(&self) -> bool {
        false
    }

    /// A new world: four interfaces with this hardware address, link down, SLAAC on. `first` is the smallest time that
    /// any call will take.
    fn reset(&mut self, mac: Mac, first: u64);

    /// The clock that is held from now on.
    fn clock(&mut self, now: u64, deadline: Option<u64>);
    fn now(&mut self) -> u64;
    /// Whether the held clock says that the time has come, and its deadline afterwards.
    fn expired(&mut self, time: u64) -> (bool, Option<u64>);
    /// The held clock's deadline afterwards.
    fn schedule(&mut self, time: u64) -> Option<u64>;
    /// The point of time so many ms later.
    fn later(&mut self, time: u64, millis: u64) -> u64;

    fn kind(&mut self, addr: Addr) -> AddrKind;
    /// Whether it is unicast, and its EUI-64.
    fn hardware(&mut self, mac: Mac) -> (bool, [u8; 8]);
    /// The address that a prefix and a hardware address form.
    fn form(&mut self, prefix: Addr, len: u8, mac: Mac) -> Option<Addr>;
    /// The address with its bits past a length cleared.
    fn mask(&mut self, addr: Addr, len: u8) -> Addr;
    fn is_formed(&mut self, addr: Addr, mac: Mac) -> bool;

    fn header(&mut self, message: &[u8]) -> Result<Header, Refused>;
    /// The place of the first malformed option, from a place on.
    fn walk(&mut self, message: &[u8], from: usize) -> Option<usize>;
    fn next(&mut self, message: &[u8], place: usize) -> Next;
    /// Of a message as it stands.
    fn checksum(&mut self, source: Addr, destination: Addr, message: &[u8]) -> u16;
    /// Whether a message to that destination is a router solicitation to all routers.
    fn is_solicitation(&mut self, message: &[u8], destination: Addr) -> bool;

    /// The option at the front: what it holds, and its data as (from, up to). None if malformed.
    fn option(&mut self, bytes: &[u8]) -> Option<(Held, usize, usize)>;
    fn write(&mut self, message: &mut [u8], place: usize, option: &ToWrite) -> Result<(), Refused>;
    /// A solicitation from a link-local address, in the first bytes of a buffer; false if there is no room.
    fn solicit(&mut self, buffer: &mut [u8], source: Addr, mac: Mac) -> bool;

    fn lookup(&mut self, iface: u8, addr: Addr) -> Result<Lookup, Refused>;
    fn start(&mut self, iface: u8, addr: Addr) -> Result<(), Refused>;
    fn fill(&mut self, iface: u8, addr: Addr, mac: Mac, now: u64) -> Result<(), Refused>;
    fn insert(&mut self, iface: u8, addr: Addr, mac: Mac, expires: u64) -> Result<(), Refused>;
    fn get(&mut self, iface: u8, addr: Addr) -> Result<Option<Shown>, Refused>;
    fn remove(&mut self, iface: u8, addr: Addr) -> Result<Option<Shown>, Refused>;
    fn clear(&mut self, iface: u8) -> Result<(), Refused>;
    /// The clock is not the one that is held.
    fn sweep(&mut self, iface: u8, now: u64, deadline: Option<u64>) -> Swept;
    /// All entries in table order.
    fn cache(&mut self) -> Vec<(u8, Addr, Entry)>;
    /// All entries as the application sees them.
    fn neighbors(&mut self) -> Vec<(u8, Addr, Shown)>;

    /// The packet dropped to make room.
    fn push(&mut self, iface: u8, addr: Addr, handle: u32) -> Result<Option<u32>, Refused>;
    fn release(&mut self, iface: u8, addr: Addr) -> Result<Option<u32>, Refused>;
    fn orphans(&mut self) -> Vec<u32>;
    fn purge(&mut self, iface: u8) -> Result<Vec<u32>, Refused>;
    /// All packets in queue order.
    fn queue(&mut self) -> Vec<(u8, Addr, u32)>;

    fn add_address(&mut self, iface: u8, addr: Addr, len: u64) -> Result<(), Refused>;
    /// The first link-local address.
    fn source(&mut self, iface: u8) -> Result<Option<Addr>, Refused>;
    /// A route of the application.
    fn add_route(&mut self, iface: u8, prefix: Addr, len: u64, via: Addr) -> Result<(), Refused>;
    fn link(&mut self, iface: u8, up: bool) -> Result<(), Refused>;
    fn restart(&mut self, iface: u8) -> Result<(), Refused>;
    fn turn_on(&mut self, iface: u8) -> Result<(), Refused>;
    /// The handles of the packets that went.
    fn turn_off(&mut self, iface: u8) -> Result<Vec<u32>, Refused>;
    /// False for Off.
    fn advertise(&mut self, iface: u8, source: Addr, now: u64, message: &[u8]) -> Result<bool, Refused>;
    /// `room`: the bytes of the lent buffer. The clock's deadline afterwards. The clock is not the one that is held.
    fn poll(&mut self, iface: u8, now: u64, deadline: Option<u64>, room: u64)
    -> Result<(Polled, Option<u64>), Refused>;
    /// None with SLAAC off.
    fn soliciting(&mut self, iface: u8) -> Result<Option<Soliciting>, Refused>;
    /// Prefix, length, preferred, valid; None is forever.
    fn prefixes(&mut self, iface: u8) -> Result<Vec<(Addr, u8, Option<u64>, Option<u64>)>, Refused>;
    fn routers(&mut self, iface: u8) -> Result<Vec<(Addr, u64)>, Refused>;
    /// Address, length, whether SLAAC's, preferred.
    fn addresses(&mut self, iface: u8) -> Result<Vec<(Addr, u8, bool, Preferred)>, Refused>;
    /// In table order.
    fn routes(&mut self) -> Vec<Route>;
}

#[derive(Debug, Clone, Copy, PartialEq, Eq)]
pub struct Route {
    pub iface: u8,
    pub prefix: Addr,
    pub len: u8,
    pub via: Addr,
    pub slaac: bool,
    pub until: Option<u64>,
}

// ---- lines

/// Why a line does not read.
#[derive(Debug, Clone, Copy, PartialEq, Eq)]
enum Bad {
    TooLong,
    NoText,
    Word,
    /// Two spaces, or one at the front or the end, or an empty line.
    Empty,
    Missing,
    Surplus,
    /// No number, or none below 2^64.
    Number,
    /// A number above its range.
    Range,
    /// Hexadecimal digits.
    Digits,
}

struct Fields<'a>(std::iter::Peekable<std::str::Split<'a, char>>);

impl<'a> Fields<'a> {
    fn word(&mut self) -> Result<&'a str, Bad> {
        match self.0.next() {
            None => Err(Bad::Missing),
            Some("") => Err(Bad::Empty),
            Some(word) => Ok(word),
        }
    }
    fn number(&mut self) -> Result<u64, Bad> {
        text::number(self.word()?.as_bytes()).ok_or(Bad::Number)
    }
    fn small<T: TryFrom<u64>>(&mut self) -> Result<T, Bad> {
        self.number()?.try_into().map_err(|_| Bad::Range)
    }
    fn addr(&mut self) -> Result<Addr, Bad> {
        text::fixed(self.word()?.as_bytes()).ok_or(Bad::Digits)
    }
    fn mac(&mut self) -> Result<Mac, Bad> {
        text::fixed(self.word()?.as_bytes()).ok_or(Bad::Digits)
    }
    /// Bytes; `-` for none.
    fn bytes(&mut self) -> Result<Vec<u8>, Bad> {
        match self.word()? {
            "-" => Ok(Vec::new()),
            w => text::bytes(w.as_bytes()).ok_or(Bad::Digits),
        }
    }
    fn deadline(&mut self) -> Result<Option<u64>, Bad> {
        match self.word()? {
            "-" => Ok(None),
            w => text::number(w.as_bytes()).map(Some).ok_or(Bad::Number),
        }
    }
    /// What comes to the main loop, and when.
    fn input(&mut self) -> Result<(u64, Input), Bad> {
        let now = self.number()?;
        let input = match self.word()? {
            "timer" => Input::Timer,
            "linkup" => Input::LinkUp,
            "advert" => Input::Advert(self.addr()?, self.bytes()?),
            "answer" => Input::Answer(self.addr()?, self.mac()?),
            "packet" => Input::Packet(self.addr()?, self.small()?),
            _ => return Err(Bad::Word),
        };
        Ok((now, input))
    }
    fn is_at_end(&mut self) -> bool {
        self.0.peek().is_none()
    }
    fn end(&mut self) -> Result<(), Bad> {
        match self.0.next() {
            None => Ok(()),
            Some("") => Err(Bad::Empty),
            Some(_) => Err(Bad::Surplus),
        }
    }
}

pub(crate) fn hex(bytes: &[u8]) -> String {
    if bytes.is_empty() { "-".into() } else { text::hex(bytes) }
}

pub(crate) fn time(t: Option<u64>) -> String {
    t.map_or("-".into(), |t| t.to_string())
}

/// The end of a prefix's or an address's time.
fn until(t: Option<u64>) -> String {
    t.map_or("forever".into(), |t| t.to_string())
}

fn shown(s: Option<Shown>) -> String {
    match s {
        None => "nothing".into(),
        Some(Shown::Incomplete) => "incomplete - -".into(),
        Some(Shown::Reachable(mac, t)) => format!("reachable {} {t}", hex(&mac)),
        Some(Shown::Stale(mac)) => format!("stale {} -", hex(&mac)),
    }
}

pub(crate) fn handles(h: &[u32]) -> String {
    let mut s = format!("dropped {}", h.len());
    for h in h {
        write!(s, " {h}").unwrap();
    }
    s
}

fn held(held: &Held) -> String {
    match held {
        Held::LinkLayer(t, mac) => format!("{t} {}", hex(mac)),
        Held::Prefix(len, flags, valid, preferred, prefix) => {
            format!("3 {len} {flags} {valid} {preferred} {}", hex(prefix))
        }
        Held::Mtu(mtu) => format!("5 {mtu}"),
        Held::Other(t) => t.to_string(),
    }
}

pub(crate) fn events(events: Vec<Event>) -> String {
    list(events, |e| match e {
        Event::Retransmit(addr) => format!("retransmit {}", hex(addr)),
        Event::Failed(addr) => format!("failed {}", hex(addr)),
    })
}

pub(crate) fn refused(number: Refused) -> String {
    format!("refused {number}")
}

fn bit(b: bool) -> u8 {
    b.into()
}

fn yes(b: bool) -> String {
    if b { "yes" } else { "no" }.into()
}

/// A list: its count, then each entry after a semicolon.
fn list<T>(items: Vec<T>, show: impl Fn(&T) -> String) -> String {
    let mut s = items.len().to_string();
    for item in &items {
        write!(s, "; {}", show(item)).unwrap();
    }
    s
}

/// The lines of an input. The last may lack its newline.
pub fn split(input: &[u8]) -> Vec<&[u8]> {
    let mut lines: Vec<&[u8]> = input.split(|b| *b == b'\n').collect();
    if lines.last().is_some_and(|l| l.is_empty()) {
        lines.pop();
    }
    lines
}

/// What a line prints.
pub fn answer(side: &mut dyn Side, line: &str) -> String {
    answer_bytes(side, line.as_bytes())
}

/// The same of a line that need not be text.
pub fn answer_bytes(side: &mut dyn Side, line: &[u8]) -> String {
    match call(side, line) {
        Err(why) => {
            if side.marks() {
                mark_bad(why, line);
            }
            "bad line".into()
        }
        Ok(Ok(text)) => text,
        Ok(Err(number)) => refused(number),
    }
}

fn mark_bad(why: Bad, line: &[u8]) {
    match why {
        Bad::TooLong => mark!("calls.bad-too-long"),
        Bad::NoText => {}
        Bad::Word => mark!("calls.bad-word"),
        Bad::Empty if line.is_empty() => mark!("calls.bad-empty-line"),
        Bad::Empty => mark!("calls.bad-empty-field"),
        Bad::Missing => mark!("calls.bad-missing"),
        Bad::Surplus => mark!("calls.bad-surplus"),
        Bad::Number => mark!("calls.bad-number"),
        Bad::Range => mark!("calls.bad-range"),
        Bad::Digits => mark!("calls.bad-digits"),
    }
    if !line.is_ascii() {
        mark!("calls.bad-no-text");
    }
    if line.last() == Some(&b'\r') {
        mark!("calls.bad-carriage-return");
    }
}

/// Most inputs of a `run`.
const INPUTS: usize = 4;

fn call(side: &mut dyn Side, line: &[u8]) -> Result<Result<String, Refused>, Bad> {
    if line.len() > LINE {
        return Err(Bad::TooLong);
    }
    let line = str::from_utf8(line).map_err(|_| Bad::NoText)?;
    let mut f = Fields(line.split(' ').peekable());
    let ok = |()| "ok".to_string();
    Ok(match f.word()? {
        "new" => {
            let (mac, first) = (f.mac()?, f.number()?);
            f.end()?;
            side.reset(mac, first);
            Ok("ok".into())
        }
        "clock" => {
            let (now, deadline) = (f.number()?, f.deadline()?);
            f.end()?;
            side.clock(now, deadline);
            Ok("ok".into())
        }
        "now" => {
            f.end()?;
            Ok(side.now().to_string())
        }
        "expired" => {
            let at = f.number()?;
            f.end()?;
            let (expired, deadline) = side.expired(at);
            Ok(format!("{} deadline {}", yes(expired), time(deadline)))
        }
        "schedule" => {
            let at = f.number()?;
            f.end()?;
            Ok(format!("deadline {}", time(side.schedule(at))))
        }
        "add" => {
            let (at, millis) = (f.number()?, f.number()?);
            f.end()?;
            Ok(side.later(at, millis).to_string())
        }
        "kind" => {
            let addr = f.addr()?;
            f.end()?;
            let kind = side.kind(addr);
            Ok(format!(
                "unicast {} multicast {} linklocal {} unspecified {} allrouters {}",
                bit(kind.unicast),
                bit(kind.multicast),
                bit(kind.link_local),
                bit(kind.unspecified),
                bit(kind.all_routers)
            ))
        }
        "hardware" => {
            let mac = f.mac()?;
            f.end()?;
            let (unicast, eui) = side.hardware(mac);
            Ok(format!("unicast {} eui {}", bit(unicast), hex(&eui)))
        }
        "form" => {
            let (prefix, len, mac) = (f.addr()?, f.small()?, f.mac()?);
            f.end()?;
            Ok(side.form(prefix, len, mac).map_or("nothing".into(), |addr| format!("formed {}", hex(&addr))))
        }
        "mask" => {
            let (addr, len) = (f.addr()?, f.small()?);
            f.end()?;
            Ok(format!("masked {}", hex(&side.mask(addr, len))))
        }
        "formed" => {
            let (addr, mac) = (f.addr()?, f.mac()?);
            f.end()?;
            Ok(yes(side.is_formed(addr, mac)))
        }
        // The bytes are compared, on either side.
        "same" => {
            let (mac, other) = (f.mac()?, f.mac()?);
            f.end()?;
            Ok(yes(mac == other))
        }
        "advert" => {
            let message = f.bytes()?;
            f.end()?;
            side.header(&message).map(|h| format!("lifetime {} managed {} other {}", h.lifetime, bit(h.managed), bit(h.other)))
        }
        "options" => {
            let (message, place) = (f.bytes()?, f.small()?);
            f.end()?;
            Ok(side.walk(&message, place).map_or("clean".into(), |at| format!("malformed {at}")))
        }
        "next" => {
            let (message, place) = (f.bytes()?, f.small()?);
            f.end()?;
            Ok(match side.next(&message, place) {
                Next::End => "end".into(),
                Next::Malformed => "malformed".into(),
                Next::Option(option, next) => format!("{} next {next}", held(&option)),
            })
        }
        "checksum" => {
            let (source, destination, message) = (f.addr()?, f.addr()?, f.bytes()?);
            f.end()?;
            Ok(side.checksum(source, destination, &message).to_string())
        }
        "solicitation" => {
            let (message, destination) = (f.bytes()?, f.addr()?);
            f.end()?;
            Ok(yes(side.is_solicitation(&message, destination)))
        }
        "option" => {
            let bytes = f.bytes()?;
            f.end()?;
            Ok(match side.option(&bytes) {
                None => "malformed -".into(),
                Some((option, from, to)) => {
                    format!("{} data {from} {to} {}", held(&option), hex(&bytes[from..to]))
                }
            })
        }
        "write" => {
            let (mut message, place) = (f.bytes()?, f.small()?);
            let option = match f.word()? {
                "1" => ToWrite::LinkLayer(1, f.mac()?),
                "2" => ToWrite::LinkLayer(2, f.mac()?),
                "3" => ToWrite::Prefix(f.small()?, f.small()?, f.small()?, f.small()?, f.addr()?),
                "5" => ToWrite::Mtu(f.small()?),
                _ => return Err(Bad::Word),
            };
            f.end()?;
            side.write(&mut message, place, &option).map(|()| hex(&message))
        }
        "solicit" => {
            let (mut buffer, source, mac) = (f.bytes()?, f.addr()?, f.mac()?);
            f.end()?;
            Ok(if side.solicit(&mut buffer, source, mac) { hex(&buffer) } else { format!("noroom {}", hex(&buffer)) })
        }
        "lookup" => {
            let (iface, addr) = (f.small()?, f.addr()?);
            f.end()?;
            side.lookup(iface, addr).map(|l| match l {
                Lookup::Found(mac) => format!("found {}", hex(&mac)),
                Lookup::Pending => "pending".into(),
                Lookup::NotFound => "notfound".into(),
            })
        }
        "start" => {
            let (iface, addr) = (f.small()?, f.addr()?);
            f.end()?;
            side.start(iface, addr).map(ok)
        }
        "fill" => {
            let (iface, addr, mac, now) = (f.small()?, f.addr()?, f.mac()?, f.number()?);
            f.end()?;
            side.fill(iface, addr, mac, now).map(ok)
        }
        "insert" => {
            let (iface, addr, mac, expires) = (f.small()?, f.addr()?, f.mac()?, f.number()?);
            f.end()?;
            side.insert(iface, addr, mac, expires).map(ok)
        }
        "get" => {
            let (iface, addr) = (f.small()?, f.addr()?);
            f.end()?;
            side.get(iface, addr).map(shown)
        }
        "remove" => {
            let (iface, addr) = (f.small()?, f.addr()?);
            f.end()?;
            side.remove(iface, addr).map(shown)
        }
        "clear" => {
            let iface = f.small()?;
            f.end()?;
            side.clear(iface).map(ok)
        }
        "sweep" => {
            let (iface, now, deadline) = (f.small()?, f.number()?, f.deadline()?);
            f.end()?;
            // The held clock is lent.
            side.clock(now, deadline);
            let Swept { looked, answer } = side.sweep(iface, now, deadline);
            Ok(match answer {
                Ok((reported, left)) => {
                    side.clock(now, left);
                    format!("deadline {} looked {looked} events {}", time(left), events(reported))
                }
                Err(number) => format!("{} looked {looked}", refused(number)),
            })
        }
        "cache" => {
            f.end()?;
            Ok(list(side.cache(), |(iface, addr, entry)| {
                let entry = match entry {
                    Entry::Started => "started".into(),
                    Entry::Incomplete(probes, due) => format!("incomplete {probes} {due}"),
                    Entry::Reachable(mac, t) => format!("reachable {} {t}", hex(mac)),
                    Entry::Stale(mac) => format!("stale {}", hex(mac)),
                };
                format!("{iface} {} {entry}", hex(addr))
            }))
        }
        "neighbors" => {
            f.end()?;
            Ok(list(side.neighbors(), |(iface, addr, state)| format!("{iface} {} {}", hex(addr), shown(Some(*state)))))
        }
        "push" => {
            let (iface, addr, handle) = (f.small()?, f.addr()?, f.small()?);
            f.end()?;
            side.push(iface, addr, handle).map(|h| handles(h.as_slice()))
        }
        "release" => {
            let (iface, addr) = (f.small()?, f.addr()?);
            f.end()?;
            side.release(iface, addr).map(|h| h.map_or("nothing".into(), |h| format!("handle {h}")))
        }
        "orphans" => {
            f.end()?;
            Ok(handles(&side.orphans()))
        }
        "purge" => {
            let iface = f.small()?;
            f.end()?;
            side.purge(iface).map(|h| handles(&h))
        }
        "queue" => {
            f.end()?;
            Ok(list(side.queue(), |(iface, addr, handle)| format!("{iface} {} {handle}", hex(addr))))
        }
        "address" => {
            let (iface, addr, len) = (f.small()?, f.addr()?, f.number()?);
            f.end()?;
            side.add_address(iface, addr, len).map(ok)
        }
        "route" => {
            let (iface, via) = (f.small()?, f.addr()?);
            f.end()?;
            side.add_route(iface, DEFAULT.0, DEFAULT.1, via).map(ok)
        }
        "routeto" => {
            let (iface, prefix, len, via) = (f.small()?, f.addr()?, f.number()?, f.addr()?);
            f.end()?;
            side.add_route(iface, prefix, len, via).map(ok)
        }
        "source" => {
            let iface = f.small()?;
            f.end()?;
            side.source(iface).map(|s| s.map_or("nothing".into(), |addr| format!("from {}", hex(&addr))))
        }
        "link" => {
            let iface = f.small()?;
            let up = match f.word()? {
                "up" => true,
                "down" => false,
                _ => return Err(Bad::Word),
            };
            f.end()?;
            side.link(iface, up).map(ok)
        }
        "restart" => {
            let iface = f.small()?;
            f.end()?;
            side.restart(iface).map(ok)
        }
        "on" => {
            let iface = f.small()?;
            f.end()?;
            side.turn_on(iface).map(ok)
        }
        "off" => {
            let iface = f.small()?;
            f.end()?;
            side.turn_off(iface).map(|h| handles(&h))
        }
        "ra" => {
            let (iface, source, now, message) = (f.small()?, f.addr()?, f.number()?, f.bytes()?);
            f.end()?;
            side.advertise(iface, source, now, &message)
                .map(|on| if on { "ok" } else { "off" }.to_string())
        }
        "poll" => {
            let (iface, now, deadline, room) = (f.small()?, f.number()?, f.deadline()?, f.number()?);
            f.end()?;
            // The held clock is lent.
            side.clock(now, deadline);
            side.poll(iface, now, deadline, room).map(|(polled, left)| {
                side.clock(now, left);
                let polled = match polled {
                    Polled::Off => "off".into(),
                    Polled::Nothing => "nothing".into(),
                    Polled::NoRoom => "noroom".into(),
                    Polled::Solicit(message) => format!("solicit {}", hex(&message)),
                };
                format!("deadline {} {polled}", time(left))
            })
        }
        "slaac" => {
            let iface = f.small()?;
            f.end()?;
            side.soliciting(iface).map(|s| match s {
                None => "off".into(),
                Some(s) => {
                    let phase = match s.phase {
                        Phased::Start => "start".into(),
                        Phased::Discovering(t) => format!("discovering {t}"),
                        Phased::Maintaining => "maintaining".into(),
                    };
                    format!(
                        "{phase} left {} sync {} seen {} managed {} other {}",
                        s.left,
                        bit(s.sync),
                        bit(s.seen),
                        bit(s.managed),
                        bit(s.other)
                    )
                }
            })
        }
        "prefixes" => {
            let iface = f.small()?;
            f.end()?;
            side.prefixes(iface)
                .map(|l| list(l, |(p, len, preferred, valid)| format!("{} {len} {} {}", hex(p), until(*preferred), until(*valid))))
        }
        "routers" => {
            let iface = f.small()?;
            f.end()?;
            side.routers(iface).map(|l| list(l, |(r, t)| format!("{} {t}", hex(r))))
        }
        "addresses" => {
            let iface = f.small()?;
            f.end()?;
            side.addresses(iface).map(|l| {
                list(l, |(a, len, slaac, preferred)| {
                    let preferred = match preferred {
                        Preferred::Always => "-".into(),
                        Preferred::Until(t) => until(*t),
                        Preferred::Never => "never".into(),
                    };
                    format!("{} {len} {} {preferred}", hex(a), if *slaac { "slaac" } else { "static" })
                })
            })
        }
        "routes" => {
            f.end()?;
            Ok(list(side.routes(), |r| {
                format!("{} {} {} {}", r.iface, hex(&r.via), if r.slaac { "slaac" } else { "static" }, time(r.until))
            }))
        }
        "destinations" => {
            f.end()?;
            Ok(list(side.routes(), |r| format!("{} {} {} {}", r.iface, hex(&r.prefix), r.len, hex(&r.via))))
        }
        "turn" => {
            let (room, (now, input)) = (f.number()?, f.input()?);
            f.end()?;
            let mut buffer = turns::buffer(room);
            let (report, wake) = turns::turn(side, now, &input, &mut buffer);
            Ok(format!("{} | {}", report.text(), turns::end(wake, &buffer)))
        }
        "run" => {
            let (room, budget, deadline) = (f.number()?, f.number()?, f.deadline()?);
            let mut inputs = Vec::new();
            while !f.is_at_end() {
                inputs.push(f.input()?);
            }
            if inputs.len() > INPUTS {
                return Err(Bad::Surplus);
            }
            let mut buffer = turns::buffer(room);
            let (reports, wake) = turns::run(side, deadline, &inputs, &mut buffer, budget);
            let mut text = reports.len().to_string();
            for report in reports {
                write!(text, " | {}", report.text()).unwrap();
            }
            Ok(format!("{text} | {}", turns::end(wake, &buffer)))
        }
        _ => return Err(Bad::Word),
    })
}

/// Where a default route leads.
const DEFAULT: (Addr, u64) = ([0; 16], 0);

//! Document 01 and the decided open points, written down once more as a program, for four interfaces and with 64-bit
//! times. It shares no line with the Rust or with the host around it: comparing the two is the point.
//!
//! Every rule has a name in `rules.txt`; `mark!` notes that it fired.

pub mod marks;
pub mod script;

/// An address as one number, most significant byte first.
pub type Addr = u128;
/// A hardware address as one number, most significant byte first.
pub type Mac = u64;

pub const PREFIXES: usize = 4;
pub const ROUTERS: usize = 2;
pub const ADDRESSES: usize = 8;
pub const ROUTES: usize = 8;
pub const NEIGHBOURS: usize = 16;
pub const PACKETS: usize = 8;
pub const IFACES: usize = 4;
/// The largest time that a call takes.
pub const LATEST: u64 = 1 << 62;

pub const ALL_ROUTERS: Addr = 0xff02_0000_0000_0000_0000_0000_0000_0002;

pub fn is_link_local(a: Addr) -> bool {
    a >> 118 == 0xfe80 >> 6
}

pub fn is_multicast(a: Addr) -> bool {
    a >> 120 == 0xff
}

pub fn is_unicast(a: Addr) -> bool {
    a != 0 && !is_multicast(a)
}

pub fn is_unicast_mac(m: Mac) -> bool {
    (m >> 40) & 1 == 0
}

/// An address is asked what it is.
pub fn mark_kind(a: Addr) {
    match a {
        0 => mark!("calls.kind-unspecified"),
        ALL_ROUTERS => mark!("calls.kind-all-routers"),
        _ if is_multicast(a) => mark!("calls.kind-multicast"),
        _ if is_link_local(a) => {
            mark!("calls.kind-link-local");
            if a >> 64 != 0xfe80 << 48 {
                mark!("calls.wide-link-local");
            }
        }
        _ => mark!("calls.kind-other-unicast"),
    }
    let nearest_multicast = a >> 120 == 0xfe || a >> 120 == 0xfd;
    if nearest_multicast && !is_link_local(a) {
        mark!("calls.kind-almost");
    }
}

/// Whether it is unicast, and its EUI-64.
pub fn hardware(m: Mac) -> (bool, u64) {
    if is_unicast_mac(m) {
        mark!("calls.hardware-unicast");
    } else {
        mark!("calls.hardware-group");
    }
    (is_unicast_mac(m), eui64(m))
}

/// "Only length 64 forms an address, prefix bytes 0 to 7 and then EUI-64".
pub fn form(prefix: Addr, len: u8, mac: Mac) -> Option<Addr> {
    if len != 64 {
        match len {
            63 | 65 => mark!("calls.form-nothing-by-one"),
            129.. => mark!("calls.form-nothing-above-128"),
            _ => mark!("calls.form-nothing"),
        }
        return None;
    }
    mark!("calls.form");
    if prefix as u64 != 0 {
        mark!("calls.form-low-bytes-dropped");
    }
    Some(prefix >> 64 << 64 | u128::from(eui64(mac)))
}

/// RFC 4861 4.6.2, request 2026-02: a receiver ignores the bits past a prefix's length, so they are read as zero, one by one. A length above
/// 128 has none behind it.
pub fn cleared(addr: Addr, len: u8) -> Addr {
    (len..128).fold(addr, |addr, bit| addr & !(1 << (127 - bit)))
}

/// An address is asked for without the bits past a length.
pub fn mask(addr: Addr, len: u8) -> Addr {
    match len {
        0 => mark!("calls.mask-0"),
        64 => mark!("calls.mask-64"),
        128 => mark!("calls.mask-128"),
        129.. => mark!("calls.wide-mask-above-128"),
        _ if len % 8 == 0 => mark!("calls.mask-whole-bytes"),
        _ => mark!("calls.mask-inside-a-byte"),
    }
    match len {
        63 | 65 => mark!("calls.mask-64-by-one"),
        127 => mark!("calls.mask-127"),
        _ => {}
    }
    let masked = cleared(addr, len);
    if masked == addr && len < 128 {
        mark!("calls.mask-nothing-to-clear");
    }
    masked
}

/// The prefix of a prefix option.
pub fn prefix_of(option: &[u8]) -> Addr {
    cleared(be(&option[16..32]), option[2])
}

/// Whether a prefix option has a bit past its length.
fn has_bits(option: &[u8]) -> bool {
    prefix_of(option) != be(&option[16..32])
}

/// Whether an address ends in the EUI-64 of a hardware address.
pub fn is_formed(addr: Addr, mac: Mac) -> bool {
    let formed = addr as u64 == eui64(mac);
    if formed {
        mark!("calls.formed");
    } else if (addr as u64 ^ eui64(mac)).count_ones() == 1 {
        mark!("calls.formed-not-by-one-bit");
    } else {
        mark!("calls.formed-not");
    }
    formed
}

/// A length of time is added to a point in time, which stops at the last that 64 bits hold.
pub fn later(time: u64, millis: u64) -> u64 {
    match u128::from(time) + u128::from(millis) {
        sum if sum > u128::from(u64::MAX) => {
            mark!("calls.add-stops");
            u64::MAX
        }
        sum => {
            if sum == u128::from(u64::MAX) {
                mark!("calls.add-to-the-last");
            } else {
                mark!("calls.add");
            }
            sum as u64
        }
    }
}

/// The clock of one poll or sweep.
#[derive(Debug, Clone, Copy, PartialEq, Eq)]
pub struct Clock {
    pub now: u64,
    pub deadline: Option<u64>,
}

impl Clock {
    pub fn at(now: u64) -> Clock {
        Clock { now, deadline: None }
    }

    fn schedule(&mut self, t: u64) {
        self.deadline = Some(match self.deadline {
            None => t,
            Some(d) => d.min(t),
        });
    }

    fn expired(&mut self, t: u64) -> bool {
        if t <= self.now {
            return true;
        }
        self.schedule(t);
        false
    }

    /// The clock is asked by itself.
    pub fn ask(&mut self, t: u64) -> bool {
        if self.now > LATEST {
            mark!("calls.wide-late-clock");
        }
        if t == self.now {
            mark!("calls.expired-now");
        } else if t < self.now {
            mark!("calls.expired");
        } else if t - self.now == 1 {
            mark!("calls.expired-not-by-one");
        } else {
            mark!("calls.expired-not");
        }
        if t > self.now {
            self.mark_join(t);
        }
        self.expired(t)
    }

    /// A time is scheduled by itself, one that has come as well.
    pub fn join(&mut self, t: u64) {
        if t <= self.now {
            mark!("calls.wide-schedule-what-has-come");
        } else {
            mark!("calls.schedule");
        }
        self.mark_join(t);
        self.schedule(t);
    }

    fn mark_join(&self, t: u64) {
        match self.deadline {
            None => mark!("calls.clock-deadline"),
            Some(d) if t < d => mark!("calls.clock-deadline-forward"),
            Some(d) if t == d => mark!("calls.clock-deadline-equal"),
            Some(_) => mark!("calls.clock-deadline-stays"),
        }
    }
}

/// When a prefix's time ends: a moment, or None for forever (request 2026-01).
pub type End = Option<u64>;

/// All ones in a lifetime are forever.
fn end(now: u64, seconds: u64) -> End {
    if seconds == 0xffff_ffff {
        return None;
    }
    Some(now + 1000 * seconds)
}

fn over(end: End, now: u64) -> bool {
    end.is_some_and(|t| t <= now)
}

#[derive(Debug, Clone, Copy, PartialEq, Eq)]
pub struct Prefix {
    pub addr: Addr,
    pub len: u8,
    pub preferred: End,
    pub valid: End,
}

#[derive(Debug, Clone, Copy, PartialEq, Eq)]
pub struct Router {
    pub addr: Addr,
    pub until: u64,
}

#[derive(Debug, Clone, Copy, PartialEq, Eq)]
pub enum Phase {
    Start,
    Discovering { retry: u64 },
    Maintaining,
}

#[derive(Debug, Clone, PartialEq, Eq)]
pub struct Slaac {
    pub prefixes: Vec<Prefix>,
    pub routers: Vec<Router>,
    pub phase: Phase,
    pub left: u8,
    pub sync: bool,
    pub seen: bool,
    pub managed: bool,
    pub other: bool,
}

impl Slaac {
    fn fresh() -> Slaac {
        Slaac {
            prefixes: Vec::new(),
            routers: Vec::new(),
            phase: Phase::Start,
            left: 3,
            sync: false,
            seen: false,
            managed: false,
            other: false,
        }
    }
}

#[derive(Debug, Clone, Copy, PartialEq, Eq)]
pub enum Preferred {
    Always,
    Until(End),
    Never,
}

#[derive(Debug, Clone, Copy, PartialEq, Eq)]
pub struct Address {
    pub addr: Addr,
    pub len: u8,
    pub slaac: bool,
    pub preferred: Preferred,
}

#[derive(Debug, Clone, PartialEq, Eq)]
pub struct Iface {
    pub mac: Mac,
    pub up: bool,
    pub addrs: Vec<Address>,
    pub slaac: Option<Slaac>,
}

#[derive(Debug, Clone, Copy, PartialEq, Eq)]
pub struct Route {
    pub iface: usize,
    /// Where it leads; a default route anywhere: 0 and 0.
    pub prefix: Addr,
    pub len: u8,
    pub via: Addr,
    pub slaac: bool,
    pub until: Option<u64>,
}

#[derive(Debug, Clone, Copy, PartialEq, Eq)]
pub enum State {
    Started,
    Incomplete { probes: u8, due: u64 },
    Reachable { mac: Mac, until: u64 },
    Stale { mac: Mac },
}

#[derive(Debug, Clone, Copy, PartialEq, Eq)]
pub struct Neighbour {
    pub iface: usize,
    pub addr: Addr,
    pub state: State,
}

#[derive(Debug, Clone, Copy, PartialEq, Eq)]
pub struct Packet {
    pub iface: usize,
    pub addr: Addr,
    pub handle: u32,
}

#[derive(Debug, Clone, PartialEq, Eq)]
pub enum Answer<T> {
    Refused(u32),
    Off,
    Done(T),
}

#[derive(Debug, Clone, Copy, PartialEq, Eq)]
pub enum Found {
    Found(Mac),
    Pending,
    NotFound,
}

#[derive(Debug, Clone, Copy, PartialEq, Eq)]
pub enum Probe {
    Retransmit(Addr),
    Failed(Addr),
}

/// What a sweep came to.
#[derive(Debug, Clone, PartialEq, Eq)]
pub struct Swept {
    /// The entries that the calls for events looked at.
    pub looked: usize,
    pub answer: Answer<Vec<Probe>>,
}

impl Swept {
    /// It looked at none.
    fn refused(number: u32) -> Swept {
        mark!("calls.looked-refused");
        Swept {
            looked: 0,
            answer: Answer::Refused(number),
        }
    }
}

#[derive(Debug, Clone, PartialEq, Eq)]
pub enum Sent {
    Nothing,
    Solicit([u8; 16]),
    NoRoom,
}

#[derive(Debug, Clone, PartialEq, Eq)]
pub struct Model {
    pub ifaces: [Iface; IFACES],
    pub routes: Vec<Route>,
    pub neighbours: Vec<Neighbour>,
    pub packets: Vec<Packet>,
}

fn be(bytes: &[u8]) -> u128 {
    bytes.iter().fold(0, |n, b| n << 8 | u128::from(*b))
}

/// An option that is well formed: its type and its bytes.
pub fn option_at(rest: &[u8]) -> Option<(u8, &[u8])> {
    option_or_why(rest).ok()
}

fn option_or_why(rest: &[u8]) -> Result<(u8, &[u8]), &'static str> {
    if rest.len() < 8 {
        return Err("under-8");
    }
    let len = 8 * usize::from(rest[1]);
    if len == 0 {
        return Err("length-0");
    }
    if rest.len() < len {
        return Err("cut-short");
    }
    if rest[0] == 3 && len < 32 {
        return Err("type-3");
    }
    if rest[0] == 4 && len < 48 {
        return Err("type-4");
    }
    Ok((rest[0], &rest[..len]))
}

/// An option read on its own.
pub fn read_option(rest: &[u8]) -> Option<(u8, &[u8])> {
    let read = option_or_why(rest);
    match read {
        Ok((1, _)) => mark!("calls.option-1"),
        Ok((2, _)) => mark!("calls.option-2"),
        Ok((3, _)) => mark!("calls.option-3"),
        Ok((4, _)) => mark!("calls.option-4"),
        Ok((5, _)) => mark!("calls.option-5"),
        Ok(_) => mark!("calls.option-unknown"),
        Err("under-8") => mark!("calls.option-under-8"),
        Err("length-0") => mark!("calls.option-length-0"),
        Err("cut-short") => mark!("calls.option-cut-short"),
        Err("type-3") => mark!("calls.option-short-type-3"),
        Err(_) => mark!("calls.option-short-type-4"),
    }
    if let Ok((kind, option)) = read {
        if kind == 3 {
            for seconds in [be(&option[4..8]), be(&option[8..12])] {
                match seconds {
                    0xffff_ffff => mark!("calls.wide-forever"),
                    1_073_742.. => mark!("calls.wide-long-lifetime"),
                    _ => {}
                }
            }
            if option[2] > 128 && be(&option[16..32]) != 0 {
                mark!("calls.option-above-128");
            }
            if has_bits(option) {
                mark!("calls.wide-option-bits");
            }
        }
        if option.len() < rest.len() {
            mark!("calls.option-with-more-behind");
        }
        if option.len() == 8 * 255 {
            mark!("calls.option-longest");
        }
    }
    read.ok()
}

/// What stands at a place of a message.
#[derive(Debug, Clone, Copy, PartialEq, Eq)]
pub enum Next<'a> {
    End,
    Malformed,
    /// Its type and its bytes.
    Option(u8, &'a [u8]),
}

pub fn next(message: &[u8], place: usize) -> Next<'_> {
    if place >= message.len() {
        if place == message.len() {
            mark!("calls.next-end");
        } else {
            mark!("calls.next-past-the-end");
        }
        return Next::End;
    }
    match option_or_why(&message[place..]) {
        Err(_) => {
            mark!("calls.next-malformed");
            Next::Malformed
        }
        Ok((kind, option)) => {
            match kind {
                1 => mark!("calls.next-1"),
                2 => mark!("calls.next-2"),
                3 => mark!("calls.next-3"),
                4 => mark!("calls.next-4"),
                5 => mark!("calls.next-5"),
                _ => mark!("calls.next-unknown"),
            }
            if kind == 3 && option[2] > 128 && be(&option[16..32]) != 0 {
                mark!("calls.next-above-128");
            }
            if kind == 3 && has_bits(option) {
                mark!("calls.wide-next-bits");
            }
            if place > 0 {
                mark!("calls.next-not-the-first");
            }
            Next::Option(kind, option)
        }
    }
}

/// "Every option is checked, and the walk is left at the first malformed one": its place.
pub fn walk(message: &[u8], from: usize) -> Option<usize> {
    let mut place = from;
    let mut walked = 0;
    while place < message.len() {
        let Some((_, option)) = option_at(&message[place..]) else {
            match walked {
                0 => mark!("calls.options-malformed-first"),
                _ => mark!("calls.options-malformed-later"),
            }
            return Some(place);
        };
        place += option.len();
        walked += 1;
    }
    match walked {
        0 => mark!("calls.options-none"),
        1 => mark!("calls.options-one"),
        _ => mark!("calls.options-several"),
    }
    None
}

/// The header of an advertisement: lifetime in seconds, managed, other.
pub fn header(message: &[u8]) -> Answer<(u32, bool, bool)> {
    if message.len() < 16 {
        mark!("calls.advert-5-short");
        return Answer::Refused(5);
    }
    if message[0] != 134 {
        mark!("calls.advert-5-type");
        return Answer::Refused(5);
    }
    if message[1] != 0 {
        mark!("calls.advert-5-code");
        return Answer::Refused(5);
    }
    let (managed, other) = (message[5] & 0x80 != 0, message[5] & 0x40 != 0);
    match (managed, other) {
        (true, true) => mark!("calls.advert-both-flags"),
        (true, false) => mark!("calls.advert-managed"),
        (false, true) => mark!("calls.advert-other"),
        (false, false) => mark!("calls.advert-no-flag"),
    }
    Answer::Done((be(&message[6..8]) as u32, managed, other))
}

/// Whether a message is a solicitation (RFC 4861 4.1: 8 bytes at least, 133, code 0) to ff02::2.
pub fn is_solicitation(message: &[u8], dst: Addr) -> bool {
    let solicits = message.len() >= 8 && message[0] == 133 && message[1] == 0;
    match (solicits, dst == ALL_ROUTERS) {
        (true, true) => mark!("calls.solicitation"),
        (true, false) => mark!("calls.solicitation-elsewhere"),
        (false, _) if message.len() < 8 => mark!("calls.solicitation-short"),
        (false, _) if message[0] != 133 => mark!("calls.solicitation-other-type"),
        (false, _) => mark!("calls.solicitation-other-code"),
    }
    solicits && dst == ALL_ROUTERS
}

/// Write an option's bytes at a place in a message; false if there is no room.
pub fn write_at(message: &mut [u8], place: usize, option: &[u8]) -> bool {
    let room = message.len().checked_sub(place);
    match room {
        None => mark!("calls.write-place-past-end"),
        Some(room) if room < option.len() => mark!("calls.write-no-room"),
        Some(room) => {
            if room == option.len() {
                mark!("calls.write-fits-exactly");
            } else {
                mark!("calls.write-with-more-behind");
            }
            match option[0] {
                1 => mark!("calls.write-1"),
                2 => mark!("calls.write-2"),
                3 => mark!("calls.write-3"),
                _ => mark!("calls.write-5"),
            }
            message[place..place + option.len()].copy_from_slice(option);
            return true;
        }
    }
    false
}

/// RFC 4443 2.3: the checksum of an ICMPv6 message over its pseudo-header.
pub fn checksum(src: Addr, dst: Addr, message: &[u8]) -> u16 {
    let mut bytes = Vec::new();
    bytes.extend(src.to_be_bytes());
    bytes.extend(dst.to_be_bytes());
    bytes.extend((message.len() as u32).to_be_bytes());
    bytes.extend([0, 0, 0, 58]);
    bytes.extend(message);
    if bytes.len() % 2 == 1 {
        bytes.push(0);
    }
    let mut sum: u64 = bytes.chunks(2).map(|c| u64::from(c[0]) << 8 | u64::from(c[1])).sum();
    let mut folds = 0;
    while sum > 0xffff {
        sum = (sum & 0xffff) + (sum >> 16);
        folds += 1;
    }
    if folds > 1 {
        mark!("solicit.checksum-carries-twice");
    }
    if sum == 0xffff {
        mark!("solicit.checksum-zero");
    }
    !(sum as u16)
}

/// The checksum of a message as it stands.
pub fn checksum_of(src: Addr, dst: Addr, message: &[u8]) -> u16 {
    match message.len() % 2 {
        _ if message.is_empty() => mark!("calls.checksum-of-nothing"),
        0 => mark!("calls.checksum"),
        _ => mark!("calls.checksum-odd"),
    }
    let sum = checksum(src, dst, message);
    if sum == 0 {
        mark!("calls.checksum-zero");
    }
    sum
}

/// RFC 4861 4.1: a solicitation to all routers with its source's hardware address.
pub fn solicitation(source: Addr, mac: Mac) -> [u8; 16] {
    let mut message = [0; 16];
    message[0] = 133;
    message[8] = 1;
    message[9] = 1;
    message[10..16].copy_from_slice(&mac.to_be_bytes()[2..]);
    let sum = checksum(source, ALL_ROUTERS, &message);
    message[2..4].copy_from_slice(&sum.to_be_bytes());
    message
}

/// RFC 2464: the interface identifier of a hardware address.
pub fn eui64(mac: Mac) -> u64 {
    let high = (mac >> 24) & 0xff_ffff;
    let low = mac & 0xff_ffff;
    (high << 40 | 0xff_fe00_0000 | low) ^ (0x02 << 56)
}

impl Model {
    /// No address, link down, SLAAC on, nothing learned.
    pub fn new(mac: Mac) -> Model {
        let iface = Iface {
            mac,
            up: false,
            addrs: Vec::new(),
            slaac: Some(Slaac::fresh()),
        };
        Model {
            ifaces: std::array::from_fn(|_| iface.clone()),
            routes: Vec::new(),
            neighbours: Vec::new(),
            packets: Vec::new(),
        }
    }

    // ---- the application's calls

    pub fn add_address(&mut self, iface: usize, addr: Addr, len: u64) -> Answer<()> {
        if iface >= IFACES {
            mark!("calls.address-7");
            return Answer::Refused(7);
        }
        if len > 128 {
            mark!("calls.address-14");
            return Answer::Refused(14);
        }
        let table = &mut self.ifaces[iface].addrs;
        if let Some(old) = table.iter().find(|a| a.addr == addr && u64::from(a.len) == len) {
            mark!("calls.address-9");
            if old.slaac {
                mark!("calls.address-9-of-slaac");
            }
            return Answer::Refused(9);
        }
        if table.len() == ADDRESSES {
            mark!("calls.address-8");
            return Answer::Refused(8);
        }
        mark!("calls.address");
        table.push(Address {
            addr,
            len: len as u8,
            slaac: false,
            preferred: Preferred::Always,
        });
        Answer::Done(())
    }

    /// The first link-local address.
    pub fn source(&self, iface: usize) -> Answer<Option<Addr>> {
        if iface >= IFACES {
            mark!("calls.source-7");
            return Answer::Refused(7);
        }
        let addrs = &self.ifaces[iface].addrs;
        let local = addrs.iter().position(|a| is_link_local(a.addr));
        match local {
            None if addrs.is_empty() => mark!("calls.source-of-none"),
            None => mark!("calls.source-nothing"),
            Some(0) => mark!("calls.source"),
            Some(_) => mark!("calls.source-not-the-first"),
        }
        Answer::Done(local.map(|i| addrs[i].addr))
    }

    /// A route of the application; to 0 and 0, a default route.
    pub fn add_route(&mut self, iface: usize, prefix: Addr, len: u64, via: Addr) -> Answer<()> {
        if iface >= IFACES {
            mark!("calls.route-7");
            if len > 128 {
                mark!("calls.routeto-7-before-14");
            }
            return Answer::Refused(7);
        }
        if len > 128 {
            mark!("calls.routeto-14");
            if self.routes.len() == ROUTES {
                mark!("calls.routeto-14-before-8");
            }
            return Answer::Refused(14);
        }
        let same = |r: &Route| !r.slaac && r.prefix == prefix && u64::from(r.len) == len && r.via == via && r.iface == iface;
        if self.routes.iter().any(same) {
            mark!("calls.route-9");
            if len > 0 {
                mark!("calls.routeto-9");
            }
            if self.routes.len() == ROUTES {
                mark!("calls.route-9-before-8");
            }
            return Answer::Refused(9);
        }
        if self.routes.len() == ROUTES {
            mark!("calls.route-8");
            return Answer::Refused(8);
        }
        if (prefix, len) == (0, 0) {
            mark!("calls.route");
        } else {
            mark!("calls.routeto");
        }
        if !is_unicast(via) {
            mark!("calls.wide-route-by-group");
        }
        let same_way = |r: &&Route| r.via == via && r.iface == iface;
        if self.routes.iter().filter(same_way).any(|r| r.slaac) {
            mark!("calls.route-beside-slaac");
        }
        for r in self.routes.iter().filter(same_way).filter(|r| !r.slaac) {
            match (r.prefix == prefix, u64::from(r.len) == len) {
                (true, false) => mark!("calls.routeto-of-other-length"),
                (false, true) => mark!("calls.routeto-of-other-prefix"),
                _ => {}
            }
        }
        self.routes.push(Route {
            iface,
            prefix,
            len: len as u8,
            via,
            slaac: false,
            until: None,
        });
        Answer::Done(())
    }

    // ---- SLAAC

    pub fn set_link(&mut self, iface: usize, up: bool) {
        self.ifaces[iface].up = up;
    }

    pub fn restart(&mut self, iface: usize) {
        if let Some(s) = &mut self.ifaces[iface].slaac {
            match s.phase {
                Phase::Start => mark!("restart.start"),
                Phase::Discovering { .. } => mark!("restart.discovering"),
                Phase::Maintaining => mark!("restart.maintaining"),
            }
            if !s.prefixes.is_empty() || !s.routers.is_empty() {
                mark!("restart.keeps-learned");
            }
            s.phase = Phase::Start;
            s.left = 3;
        } else {
            mark!("restart.off");
        }
    }

    pub fn turn_on(&mut self, iface: usize) {
        if self.ifaces[iface].slaac.is_none() {
            mark!("calls.on");
            self.ifaces[iface].slaac = Some(Slaac::fresh());
        } else {
            mark!("calls.on-again");
        }
    }

    /// The handles of the packets that went, in queue order.
    pub fn turn_off(&mut self, iface: usize) -> Vec<u32> {
        let waits = self.packets.iter().any(|p| p.iface == iface);
        if self.ifaces[iface].slaac.is_none() {
            mark!("off.again");
            if waits {
                mark!("calls.off-again-keeps-packets");
            }
            return Vec::new();
        }
        mark!("off.first");
        self.ifaces[iface].slaac = None;
        let before = self.ifaces[iface].addrs.len();
        self.ifaces[iface].addrs.retain(|a| !a.slaac);
        let mut gone = Vec::new();
        if self.ifaces[iface].addrs.len() < before {
            mark!("off.address-gone");
            if self.neighbours.iter().any(|n| n.iface == iface) {
                mark!("off.address-gone-clears-neighbours");
            }
            if self.neighbours.iter().any(|n| n.iface != iface) {
                mark!("calls.off-keeps-other-neighbours");
            }
            for packet in &self.packets {
                match packet.iface == iface {
                    true => gone.push(packet.handle),
                    false => mark!("calls.off-keeps-other-packets"),
                }
            }
            match gone[..] {
                [] => mark!("calls.off-returns-none"),
                [_] => mark!("calls.off-returns"),
                _ => mark!("calls.off-returns-several"),
            }
            self.neighbours.retain(|n| n.iface != iface);
            self.packets.retain(|p| p.iface != iface);
        } else {
            if self.neighbours.iter().any(|n| n.iface == iface) {
                mark!("off.no-address-keeps-neighbours");
            }
            if waits {
                mark!("calls.off-keeps-packets");
            }
        }
        if self.routes.iter().any(|r| r.slaac && r.iface == iface) {
            mark!("off.route-gone");
        }
        if self.routes.iter().any(|r| r.slaac && r.iface != iface) {
            mark!("calls.off-keeps-other-routes");
        }
        if self.routes.iter().any(|r| !r.slaac && r.iface == iface) {
            mark!("calls.off-keeps-application-routes");
        }
        self.routes.retain(|r| !(r.slaac && r.iface == iface));
        gone
    }

    pub fn advertise(&mut self, iface: usize, now: u64, source: Addr, message: &[u8]) -> Answer<()> {
        if now > LATEST {
            mark!("ra.3");
            if iface < IFACES && self.ifaces[iface].slaac.is_none() {
                mark!("ra.3-before-off");
            }
            if iface >= IFACES {
                mark!("calls.ra-3-before-7");
            }
            return Answer::Refused(3);
        }
        if iface >= IFACES {
            mark!("calls.ra-7");
            return Answer::Refused(7);
        }
        if self.ifaces[iface].slaac.is_none() {
            mark!("ra.off");
            if message.len() < 16 || message[0] != 134 || message[1] != 0 {
                mark!("ra.off-before-5");
            } else if !is_link_local(source) {
                mark!("ra.off-before-6");
            }
            return Answer::Off;
        }
        if message.len() < 16 {
            mark!("ra.5-short");
            if message.len() == 15 {
                mark!("ra.5-short-by-one");
            }
            return Answer::Refused(5);
        }
        if message[0] != 134 || message[1] != 0 {
            if message[0] != 134 {
                mark!("ra.5-type");
            } else {
                mark!("ra.5-code");
            }
            if !is_link_local(source) {
                mark!("ra.5-before-6");
            }
            return Answer::Refused(5);
        }
        if !is_link_local(source) {
            mark!("ra.6");
            let mut at = 16;
            while at < message.len() {
                match option_at(&message[at..]) {
                    Some((_, option)) => at += option.len(),
                    None => {
                        mark!("ra.6-before-1");
                        break;
                    }
                }
            }
            return Answer::Refused(6);
        }

        // 1. Every option is checked before anything changes.
        let mut options = Vec::new();
        let mut at = 16;
        while at < message.len() {
            match option_or_why(&message[at..]) {
                Ok((kind, option)) => {
                    options.push((kind, option));
                    at += option.len();
                }
                Err(why) => {
                    match (why, at == 16) {
                        ("under-8", true) => mark!("ra.1-under-8"),
                        ("under-8", false) => mark!("ra.1-under-8-later"),
                        ("length-0", true) => mark!("ra.1-length-0"),
                        ("length-0", false) => mark!("ra.1-length-0-later"),
                        ("cut-short", true) => mark!("ra.1-cut-short"),
                        ("cut-short", false) => mark!("ra.1-cut-short-later"),
                        ("type-3", true) => mark!("ra.1-type-3"),
                        ("type-3", false) => mark!("ra.1-type-3-later"),
                        (_, true) => mark!("ra.1-type-4"),
                        (_, false) => mark!("ra.1-type-4-later"),
                    }
                    if options.iter().any(|(kind, _)| *kind == 3) {
                        mark!("ra.1-after-a-prefix");
                    }
                    if options.iter().any(|(kind, _)| *kind == 1) {
                        mark!("ra.1-after-a-link-layer-address");
                    }
                    return Answer::Refused(1);
                }
            }
        }
        if options.is_empty() {
            mark!("ra.no-options");
        }

        // 2. Prefix options in order.
        if !self.ifaces[iface].up {
            mark!("ra.link-down");
        }
        let mut seen: Vec<(Addr, u8)> = Vec::new();
        let slaac = self.ifaces[iface].slaac.as_mut().unwrap();
        let mut lladdr = None;
        let mut lladdrs = 0;
        for (kind, option) in &options {
            match kind {
                1 => {
                    mark!("option.1");
                    if option.len() > 8 {
                        mark!("option.1-longer");
                    }
                    lladdr = Some(be(&option[2..8]) as Mac);
                    lladdrs += 1;
                }
                3 => {
                    mark!("option.3");
                    if option.len() > 32 {
                        mark!("option.3-longer");
                    }
                    let key = (prefix_of(option), option[2]);
                    if seen.contains(&key) {
                        if option[3] & 0x40 != 0 && has_bits(option) {
                            mark!("bits.in-same-message");
                        }
                        if be(&option[4..8]) == 0 {
                            mark!("prefix.zero-in-same-message");
                        } else {
                            mark!("prefix.twice-in-same-message");
                        }
                    }
                    seen.push(key);
                    learn_prefix(slaac, now, option);
                }
                2 => mark!("option.2"),
                4 => mark!("option.4"),
                5 => mark!("option.5"),
                _ => mark!("option.unknown"),
            }
        }

        // 3. The router.
        let seconds = be(&message[6..8]) as u64;
        let known = slaac.routers.iter().position(|r| r.addr == source);
        if seconds > 0 {
            let until = now + 1000 * seconds;
            match known {
                Some(i) => {
                    mark!("router.refresh");
                    if slaac.routers[i].until <= now {
                        mark!("router.refresh-expired");
                    }
                    slaac.routers[i].until = until;
                    slaac.sync = true;
                }
                None if slaac.routers.len() < ROUTERS => {
                    mark!("router.append");
                    slaac.routers.push(Router { addr: source, until });
                    slaac.sync = true;
                }
                None => {
                    mark!("router.full");
                    if slaac.routers.iter().any(|r| r.until <= now) {
                        mark!("router.full-with-expired");
                    }
                }
            }
        } else {
            match known {
                Some(i) => {
                    mark!("router.zero");
                    slaac.routers[i].until = now;
                    slaac.sync = true;
                }
                None => mark!("router.zero-unknown"),
            }
        }

        // 4. Flags and phase.
        slaac.managed = message[5] & 0x80 != 0;
        slaac.other = message[5] & 0x40 != 0;
        slaac.seen = true;
        match (slaac.managed, slaac.other) {
            (true, true) => mark!("flags.both"),
            (true, false) => mark!("flags.managed"),
            (false, true) => mark!("flags.other"),
            (false, false) => mark!("flags.none"),
        }
        match slaac.phase {
            Phase::Start => mark!("ra.start-stays"),
            Phase::Discovering { .. } => {
                mark!("ra.discovering-becomes-maintaining");
                slaac.phase = Phase::Maintaining;
            }
            Phase::Maintaining => mark!("ra.maintaining-stays"),
        }

        // 5. The last type 1 option, if unicast.
        if let Some(mac) = lladdr {
            if is_unicast_mac(mac) {
                mark!("ra.fills");
                if lladdrs > 1 {
                    mark!("ra.fills-from-last");
                }
                if self.neighbours.iter().any(|n| n.iface == iface && n.addr == source) {
                    mark!("ra.fills-known");
                } else if self.neighbours.len() == NEIGHBOURS {
                    mark!("ra.fills-and-evicts");
                }
                self.put(
                    iface,
                    source,
                    State::Reachable {
                        mac,
                        until: now + 60_000,
                    },
                );
            } else {
                mark!("ra.group-fills-nothing");
                if lladdrs > 1 {
                    mark!("ra.last-group-earlier-not-counted");
                }
            }
        } else {
            mark!("ra.no-link-layer-address");
        }
        Answer::Done(())
    }

    /// `room`: whether the lent buffer has 16 bytes or more.
    pub fn poll(&mut self, iface: usize, clock: &mut Clock, room: bool) -> Answer<Sent> {
        let now = clock.now;
        if now > LATEST {
            mark!("poll.3");
            if iface < IFACES && self.ifaces[iface].slaac.is_none() {
                mark!("poll.3-before-off");
            }
            if iface >= IFACES {
                mark!("calls.poll-3-before-7");
            }
            return Answer::Refused(3);
        }
        if iface >= IFACES {
            mark!("calls.poll-7");
            return Answer::Refused(7);
        }
        if self.ifaces[iface].slaac.is_none() {
            mark!("poll.off");
            if clock.deadline.is_some() {
                mark!("calls.poll-off-keeps-deadline");
            }
            return Answer::Off;
        }
        let given = clock.deadline;
        let sent = self.solicit(iface, clock, room);
        let synced = self.sync(iface, clock);
        if synced && sent != Sent::Nothing {
            mark!("poll.solicits-and-syncs");
        }
        if synced && !self.ifaces[iface].up {
            mark!("sync.link-down");
        }
        match (given, clock.deadline) {
            (None, None) => mark!("calls.poll-no-deadline"),
            (None, Some(_)) => mark!("calls.poll-deadline"),
            (a, b) if a == b => mark!("calls.poll-deadline-stays"),
            _ => mark!("calls.poll-deadline-forward"),
        }
        Answer::Done(sent)
    }

    fn solicit(&mut self, iface: usize, clock: &mut Clock, room: bool) -> Sent {
        let Iface { mac, up, addrs, slaac } = &mut self.ifaces[iface];
        let slaac = slaac.as_mut().unwrap();
        let waiting = slaac.left > 0 && slaac.phase != Phase::Maintaining;
        if !*up {
            if waiting {
                mark!("solicit.link-down");
            }
            return Sent::Nothing;
        }
        let Some(source) = addrs.iter().find(|a| is_link_local(a.addr)) else {
            if waiting {
                mark!("solicit.no-link-local");
            }
            return Sent::Nothing;
        };
        if slaac.left == 0 {
            mark!("solicit.none-left");
            return Sent::Nothing;
        }
        match slaac.phase {
            Phase::Start => mark!("solicit.start"),
            Phase::Discovering { retry } => {
                if !clock.expired(retry) {
                    mark!("solicit.too-early");
                    if retry == clock.now + 1 {
                        mark!("solicit.too-early-by-one");
                    }
                    return Sent::Nothing;
                }
                mark!("solicit.again");
                if retry == clock.now {
                    mark!("solicit.again-exactly");
                }
            }
            Phase::Maintaining => {
                mark!("solicit.maintaining");
                return Sent::Nothing;
            }
        }
        slaac.left -= 1;
        let retry = clock.now + 4_000;
        slaac.phase = Phase::Discovering { retry };
        if slaac.left > 0 {
            clock.schedule(retry);
        } else {
            mark!("solicit.last");
        }
        if addrs[0].addr != source.addr {
            mark!("solicit.source-not-first");
        }
        if addrs.iter().filter(|a| is_link_local(a.addr)).count() > 1 {
            mark!("solicit.first-of-several-sources");
        }
        if !room {
            mark!("calls.solicit-no-room");
            return Sent::NoRoom;
        }
        let message = solicitation(source.addr, *mac);
        Sent::Solicit(message)
    }

    /// Whether there was one.
    fn sync(&mut self, iface: usize, clock: &mut Clock) -> bool {
        let now = clock.now;
        let Iface { mac, addrs, slaac, .. } = &mut self.ifaces[iface];
        let slaac = slaac.as_mut().unwrap();
        // The clock is asked of each, also when a sync is asked for already.
        let mut prefix_expired = false;
        for p in &slaac.prefixes {
            let Some(valid) = p.valid else {
                mark!("forever.sync-valid");
                continue;
            };
            if clock.expired(valid) {
                prefix_expired = true;
                if valid == now {
                    mark!("sync.valid-until-now");
                }
            } else if valid == now + 1 {
                mark!("sync.valid-one-more");
            }
        }
        let mut router_expired = false;
        for r in &slaac.routers {
            if clock.expired(r.until) {
                router_expired = true;
                if r.until == now {
                    mark!("sync.router-until-now");
                }
            } else if r.until == now + 1 {
                mark!("sync.router-one-more");
            }
        }
        if slaac.sync {
            mark!("sync.asked");
        } else if prefix_expired {
            mark!("sync.prefix-expired");
        } else if router_expired {
            mark!("sync.router-expired");
        } else {
            mark!("sync.none");
            return false;
        }

        for p in &slaac.prefixes {
            if p.len != 64 {
                mark!("sync.length-not-64");
                continue;
            }
            let addr = p.addr >> 64 << 64 | u128::from(eui64(*mac));
            if *mac >> 41 & 1 == 1 {
                mark!("formed.bit-cleared");
            } else {
                mark!("formed.bit-set");
            }
            let known = addrs.iter().position(|a| a.addr == addr && a.len == 64);
            if !over(p.valid, now) {
                let preferred = if !over(p.preferred, now) {
                    mark!("sync.preferred");
                    if p.preferred == Some(now + 1) {
                        mark!("sync.preferred-one-more");
                    }
                    if p.preferred.is_none() {
                        mark!("forever.sync-preferred");
                    }
                    Preferred::Until(p.preferred)
                } else {
                    mark!("sync.deprecated");
                    if p.preferred == Some(now) {
                        mark!("sync.deprecated-now");
                    }
                    Preferred::Never
                };
                match known {
                    Some(k) if addrs[k].slaac => {
                        mark!("sync.address-refreshed");
                        addrs[k].preferred = preferred;
                    }
                    Some(_) => mark!("sync.application-address-stays"),
                    None if addrs.len() < ADDRESSES => {
                        mark!("sync.address-appended");
                        if addrs.iter().any(|a| a.addr == addr) {
                            mark!("sync.application-address-of-other-length");
                        }
                        addrs.push(Address {
                            addr,
                            len: 64,
                            slaac: true,
                            preferred,
                        });
                    }
                    None => mark!("sync.addresses-full"),
                }
            } else {
                match known {
                    Some(k) if addrs[k].slaac => {
                        mark!("sync.address-gone");
                        if k + 1 < addrs.len() {
                            mark!("sync.address-gone-others-move");
                        }
                        if self.neighbours.iter().any(|n| n.iface == iface) {
                            mark!("sync.address-gone-neighbours-stay");
                        }
                        addrs.remove(k);
                    }
                    Some(_) => mark!("sync.expired-application-address-stays"),
                    None => mark!("sync.expired-without-address"),
                }
            }
        }

        for r in &slaac.routers {
            let known = self
                .routes
                .iter()
                .position(|t| t.slaac && t.iface == iface && t.via == r.addr);
            if r.until > now {
                match known {
                    Some(k) => {
                        mark!("sync.route-refreshed");
                        self.routes[k].until = Some(r.until);
                    }
                    None if self.routes.len() < ROUTES => {
                        mark!("sync.route-appended");
                        self.routes.push(Route {
                            iface,
                            prefix: 0,
                            len: 0,
                            via: r.addr,
                            slaac: true,
                            until: Some(r.until),
                        });
                    }
                    None => mark!("calls.sync-routes-full"),
                }
                let others = |t: &Route| t.slaac && t.iface != iface && t.via == r.addr;
                if self.routes.iter().any(others) {
                    mark!("calls.sync-route-of-other-interface-not-heeded");
                }
                let own = |t: &Route| !t.slaac && t.iface == iface && t.via == r.addr;
                if self.routes.iter().any(own) {
                    mark!("calls.sync-route-of-application-not-heeded");
                }
            } else {
                match known {
                    Some(k) => {
                        mark!("sync.route-gone");
                        if k + 1 < self.routes.len() {
                            mark!("sync.route-gone-others-move");
                        }
                        self.routes.remove(k);
                    }
                    None => mark!("sync.expired-without-route"),
                }
            }
        }

        let slaac = self.ifaces[iface].slaac.as_mut().unwrap();
        if slaac.prefixes.iter().any(|p| over(p.valid, now)) {
            mark!("sync.prefix-leaves");
            if slaac.prefixes.last().is_some_and(|p| !over(p.valid, now)) {
                mark!("sync.prefix-leaves-others-move");
            }
        }
        if slaac.routers.iter().any(|r| r.until <= now) {
            mark!("sync.router-leaves");
            if slaac.routers.last().is_some_and(|r| r.until > now) {
                mark!("sync.router-leaves-other-moves");
            }
        }
        slaac.prefixes.retain(|p| !over(p.valid, now));
        slaac.routers.retain(|r| r.until > now);
        slaac.sync = false;
        true
    }

    // ---- the neighbour cache

    fn find(&self, iface: usize, addr: Addr) -> Option<usize> {
        self.neighbours.iter().position(|n| n.iface == iface && n.addr == addr)
    }

    /// Put an entry: over a known key, else at the end, else in place of the one that is evicted.
    fn put(&mut self, iface: usize, addr: Addr, state: State) {
        let entry = Neighbour { iface, addr, state };
        if let Some(i) = self.find(iface, addr) {
            match (state, self.neighbours[i].state) {
                (State::Started, State::Started) => mark!("start.over-started"),
                (State::Started, State::Incomplete { .. }) => mark!("start.over-incomplete"),
                (State::Started, State::Reachable { .. }) => mark!("start.over-reachable"),
                (State::Started, State::Stale { .. }) => mark!("start.over-stale"),
                (_, State::Started) => mark!("fill.over-started"),
                (_, State::Incomplete { .. }) => mark!("fill.over-incomplete"),
                (_, State::Reachable { .. }) => mark!("fill.over-reachable"),
                (_, State::Stale { .. }) => mark!("fill.over-stale"),
            }
            if self.neighbours.len() == NEIGHBOURS {
                mark!("cache.full-known-key");
            }
            self.neighbours[i] = entry;
            return;
        }
        match state {
            State::Started => mark!("start.new"),
            _ => mark!("fill.new"),
        }
        if self.neighbours.iter().any(|n| n.addr == addr) {
            mark!("calls.same-address-on-other-interface");
        }
        if self.neighbours.len() < NEIGHBOURS {
            if self.neighbours.len() == NEIGHBOURS - 1 {
                mark!("cache.last-place");
            }
            self.neighbours.push(entry);
            return;
        }
        let i = self.victim();
        if self.neighbours[i].iface != iface {
            mark!("calls.evicts-of-other-interface");
        }
        match state {
            State::Started => mark!("evict.by-start"),
            _ => mark!("evict.by-fill"),
        }
        self.neighbours[i] = entry;
    }

    /// The place of the entry to evict from a full table.
    fn victim(&self) -> usize {
        let all = || self.neighbours.iter().enumerate();
        let others = |i: usize| {
            if i > 0 {
                mark!("evict.not-the-first-place");
            }
            i
        };
        let kinds = [
            all().any(|(_, n)| matches!(n.state, State::Stale { .. })),
            all().any(|(_, n)| matches!(n.state, State::Reachable { .. })),
            all().any(|(_, n)| matches!(n.state, State::Incomplete { .. })),
            all().any(|(_, n)| matches!(n.state, State::Started)),
        ];
        match kinds {
            [true, false, false, false] => mark!("evict.only-stale"),
            [false, true, false, false] => mark!("evict.only-reachable"),
            [false, false, true, false] => mark!("evict.only-incomplete"),
            [false, false, false, true] => mark!("evict.only-started"),
            [true, true, true, true] => mark!("evict.all-kinds"),
            _ => {}
        }
        if kinds[0] {
            mark!("evict.stale");
            if all().filter(|(_, n)| matches!(n.state, State::Stale { .. })).count() > 1 {
                mark!("evict.stale-tie");
            }
            return others(all().position(|(_, n)| matches!(n.state, State::Stale { .. })).unwrap());
        }
        // The earliest time among those of a kind, and the lowest index that has it.
        let earliest = |time: &dyn Fn(State) -> Option<u64>| -> Option<(usize, bool, bool)> {
            let times: Vec<(usize, u64)> = all().filter_map(|(i, n)| Some((i, time(n.state)?))).collect();
            let least = times.iter().map(|(_, t)| *t).min()?;
            let tie = times.iter().filter(|(_, t)| *t == least).count() > 1;
            let first = times.iter().find(|(_, t)| *t == least).unwrap().0;
            Some((first, tie, first != times[0].0))
        };
        if let Some((i, tie, later)) = earliest(&|s| match s {
            State::Reachable { until, .. } => Some(until),
            _ => None,
        }) {
            mark!("evict.reachable");
            if tie {
                mark!("evict.reachable-tie");
            }
            if later {
                mark!("evict.reachable-by-expiry");
            }
            return others(i);
        }
        if let Some((i, tie, later)) = earliest(&|s| match s {
            State::Incomplete { due, .. } => Some(due),
            _ => None,
        }) {
            mark!("evict.incomplete");
            if tie {
                mark!("evict.incomplete-tie");
            }
            if later {
                mark!("evict.incomplete-by-due");
            }
            if kinds[3] {
                mark!("evict.incomplete-before-started");
            }
            return others(i);
        }
        mark!("evict.started");
        0
    }

    pub fn lookup(&self, iface: usize, addr: Addr) -> Answer<Found> {
        if iface >= IFACES {
            mark!("calls.lookup-7");
            return Answer::Refused(7);
        }
        if !is_unicast(addr) {
            mark!("calls.lookup-2");
            return Answer::Refused(2);
        }
        Answer::Done(match self.find(iface, addr).map(|i| self.neighbours[i].state) {
            Some(State::Reachable { mac, .. }) => {
                mark!("calls.lookup-found");
                Found::Found(mac)
            }
            Some(State::Started) => {
                mark!("calls.lookup-started");
                Found::Pending
            }
            Some(State::Incomplete { .. }) => {
                mark!("calls.lookup-incomplete");
                Found::Pending
            }
            Some(State::Stale { .. }) => {
                mark!("calls.lookup-stale");
                Found::NotFound
            }
            None => {
                mark!("calls.lookup-absent");
                Found::NotFound
            }
        })
    }

    pub fn start(&mut self, iface: usize, addr: Addr) -> Answer<()> {
        if iface >= IFACES {
            mark!("calls.start-7");
            if !is_unicast(addr) {
                mark!("calls.start-7-before-2");
            }
            return Answer::Refused(7);
        }
        if !is_unicast(addr) {
            if addr == 0 {
                mark!("start.2-unspecified");
            } else {
                mark!("start.2-multicast");
            }
            return Answer::Refused(2);
        }
        self.put(iface, addr, State::Started);
        Answer::Done(())
    }

    pub fn fill(&mut self, iface: usize, addr: Addr, mac: Mac, now: u64) -> Answer<()> {
        if now > LATEST {
            mark!("fill.3");
            if !is_unicast(addr) || !is_unicast_mac(mac) {
                mark!("fill.3-before-2");
            }
            if iface >= IFACES {
                mark!("calls.fill-3-before-7");
            }
            return Answer::Refused(3);
        }
        if iface >= IFACES {
            mark!("calls.fill-7");
            return Answer::Refused(7);
        }
        if !is_unicast(addr) || !is_unicast_mac(mac) {
            match (addr == 0, is_multicast(addr)) {
                (true, _) => mark!("fill.2-unspecified"),
                (_, true) => mark!("fill.2-multicast"),
                _ => mark!("fill.2-group-hardware-address"),
            }
            return Answer::Refused(2);
        }
        self.put(
            iface,
            addr,
            State::Reachable {
                mac,
                until: now + 60_000,
            },
        );
        Answer::Done(())
    }

    pub fn insert(&mut self, iface: usize, addr: Addr, mac: Mac, until: u64) -> Answer<()> {
        if until > LATEST {
            mark!("calls.insert-3");
            return Answer::Refused(3);
        }
        if iface >= IFACES {
            mark!("calls.insert-7");
            return Answer::Refused(7);
        }
        if !is_unicast(addr) || !is_unicast_mac(mac) {
            if is_unicast(addr) {
                mark!("calls.insert-2-group-hardware-address");
            } else {
                mark!("calls.insert-2");
            }
            return Answer::Refused(2);
        }
        mark!("calls.insert");
        self.put(iface, addr, State::Reachable { mac, until });
        Answer::Done(())
    }

    pub fn get(&self, iface: usize, addr: Addr) -> Answer<Option<State>> {
        if iface >= IFACES {
            mark!("calls.get-7");
            return Answer::Refused(7);
        }
        match self.find(iface, addr).map(|i| self.neighbours[i].state) {
            None => mark!("calls.get-nothing"),
            Some(State::Started) => mark!("calls.get-started"),
            Some(State::Incomplete { .. }) => mark!("calls.get-incomplete"),
            Some(State::Reachable { .. }) => mark!("calls.get-reachable"),
            Some(State::Stale { .. }) => mark!("calls.get-stale"),
        }
        Answer::Done(self.find(iface, addr).map(|i| self.neighbours[i].state))
    }

    /// All entries, in table order.
    pub fn listing(&self) -> &[Neighbour] {
        for n in &self.neighbours {
            match n.state {
                State::Started => mark!("calls.neighbors-started"),
                State::Incomplete { .. } => mark!("calls.neighbors-incomplete"),
                State::Reachable { .. } => mark!("calls.neighbors-reachable"),
                State::Stale { .. } => mark!("calls.neighbors-stale"),
            }
        }
        match self.neighbours.len() {
            0 => mark!("calls.neighbors-none"),
            NEIGHBOURS => mark!("calls.neighbors-full"),
            _ => {}
        }
        &self.neighbours
    }

    pub fn remove(&mut self, iface: usize, addr: Addr) -> Answer<Option<State>> {
        if iface >= IFACES {
            mark!("calls.remove-7");
            return Answer::Refused(7);
        }
        let Some(i) = self.find(iface, addr) else {
            mark!("remove.absent");
            if !is_unicast(addr) {
                mark!("remove.absent-not-unicast");
            }
            return Answer::Done(None);
        };
        let gone = self.take_out(i);
        match gone.state {
            State::Started => mark!("remove.started"),
            State::Incomplete { .. } => mark!("remove.incomplete"),
            State::Reachable { .. } => mark!("remove.reachable"),
            State::Stale { .. } => mark!("remove.stale"),
        }
        if i < self.neighbours.len() {
            mark!("remove.last-moves-in");
        } else {
            mark!("remove.the-last");
        }
        Answer::Done(Some(gone.state))
    }

    /// Take an entry out; the last one moves into its place.
    fn take_out(&mut self, i: usize) -> Neighbour {
        let gone = self.neighbours[i];
        let last = self.neighbours.pop().unwrap();
        if i < self.neighbours.len() {
            self.neighbours[i] = last;
        }
        gone
    }

    pub fn clear(&mut self, iface: usize) -> Answer<()> {
        if iface >= IFACES {
            mark!("calls.clear-7");
            return Answer::Refused(7);
        }
        mark!("calls.clear");
        let first = self.neighbours.iter().position(|n| n.iface == iface);
        if first.is_some_and(|f| self.neighbours[f..].iter().filter(|n| n.iface != iface).count() > 1) {
            mark!("calls.clear-keeps-order");
        }
        self.neighbours.retain(|n| n.iface != iface);
        Answer::Done(())
    }

    pub fn sweep(&mut self, iface: usize, clock: &mut Clock) -> Swept {
        let now = clock.now;
        if now > LATEST {
            mark!("sweep.3");
            if iface >= IFACES {
                mark!("calls.sweep-3-before-7");
            }
            return Swept::refused(3);
        }
        if iface >= IFACES {
            mark!("calls.sweep-7");
            return Swept::refused(7);
        }
        let given = clock.deadline;
        // The expiry pass.
        for n in &mut self.neighbours {
            match n.state {
                State::Started => {
                    mark!("sweep.started");
                    if n.iface != iface {
                        mark!("calls.sweep-started-of-other-interface");
                    }
                    let due = now + 1_000;
                    n.state = State::Incomplete { probes: 1, due };
                    clock.schedule(due);
                }
                State::Incomplete { due, .. } => {
                    clock.expired(due);
                }
                State::Reachable { mac, until } => {
                    if clock.expired(until) {
                        mark!("sweep.becomes-stale");
                        if n.iface != iface {
                            mark!("calls.sweep-stale-of-other-interface");
                        }
                        if until == now {
                            mark!("sweep.becomes-stale-exactly");
                        }
                        n.state = State::Stale { mac };
                    } else {
                        mark!("sweep.stays-reachable");
                        if until == now + 1 {
                            mark!("sweep.stays-reachable-by-one");
                        }
                    }
                }
                State::Stale { .. } => mark!("sweep.stays-stale"),
            }
        }
        // The probe events from place 0 until none. Each entry that is taken to look at is counted.
        let mut events = Vec::new();
        let mut looked = 0;
        let mut place = 0;
        let mut moved_in = false;
        while place < self.neighbours.len() {
            let n = self.neighbours[place];
            looked += 1;
            if moved_in {
                mark!("calls.looked-moved-in");
            }
            if n.iface != iface {
                mark!("calls.looked-other-interface");
            }
            let State::Incomplete { probes, due } = n.state else {
                if moved_in {
                    mark!("sweep.moved-in-not-due");
                }
                moved_in = false;
                place += 1;
                continue;
            };
            if n.iface != iface || due > now {
                if moved_in {
                    mark!("sweep.moved-in-not-due");
                }
                moved_in = false;
                if n.iface != iface && due <= now {
                    mark!("calls.sweep-due-of-other-interface");
                }
                if n.iface == iface {
                    mark!("sweep.not-due");
                    if due == now + 1 {
                        mark!("sweep.not-due-by-one");
                    }
                }
                place += 1;
                continue;
            }
            if due == now {
                mark!("sweep.due-exactly");
            } else {
                mark!("sweep.due-late");
            }
            if probes >= 3 {
                mark!("sweep.failed");
                if place + 1 == self.neighbours.len() {
                    mark!("sweep.failed-the-last");
                } else {
                    mark!("sweep.failed-last-moves-in");
                }
                if moved_in {
                    mark!("sweep.moved-in-failed");
                }
                self.take_out(place);
                moved_in = place < self.neighbours.len();
                events.push(Probe::Failed(n.addr));
            } else {
                match probes {
                    1 => mark!("sweep.retransmit-first"),
                    _ => mark!("sweep.retransmit-second"),
                }
                if moved_in {
                    mark!("sweep.moved-in-retransmit");
                }
                moved_in = false;
                self.neighbours[place].state = State::Incomplete {
                    probes: probes + 1,
                    due: now + 1_000,
                };
                events.push(Probe::Retransmit(n.addr));
                place += 1;
            }
        }
        match (given, clock.deadline) {
            (None, None) => mark!("calls.sweep-no-deadline"),
            (None, Some(_)) => mark!("calls.sweep-deadline"),
            (a, b) if a == b => mark!("calls.sweep-deadline-stays"),
            _ => mark!("calls.sweep-deadline-forward"),
        }
        match events.len() {
            0 => mark!("sweep.no-event"),
            1 => {}
            2.. if events.iter().any(|e| matches!(e, Probe::Failed(_)))
                && events.iter().any(|e| matches!(e, Probe::Retransmit(_))) =>
            {
                mark!("sweep.both-kinds-of-event")
            }
            _ => mark!("sweep.several-events"),
        }
        match events.len() {
            0 if self.neighbours.is_empty() => mark!("calls.looked-empty"),
            0 => mark!("calls.looked-none-due"),
            2.. if self.neighbours.is_empty() => mark!("calls.looked-all-fail"),
            _ => {}
        }
        Swept {
            looked,
            answer: Answer::Done(events),
        }
    }

    // ---- the waiting packets

    /// The handle that was dropped to make room, if one was.
    pub fn push(&mut self, iface: usize, addr: Addr, handle: u32) -> Answer<Option<u32>> {
        if iface >= IFACES {
            mark!("calls.push-7");
            return Answer::Refused(7);
        }
        if !is_unicast(addr) {
            mark!("calls.push-any-address");
        }
        if self.packets.iter().any(|p| p.handle == handle) {
            mark!("calls.push-handle-again");
        }
        let dropped = if self.packets.len() == PACKETS {
            mark!("calls.push-full");
            Some(self.packets.remove(0).handle)
        } else {
            mark!("calls.push");
            None
        };
        self.packets.push(Packet { iface, addr, handle });
        Answer::Done(dropped)
    }

    pub fn release(&mut self, iface: usize, addr: Addr) -> Answer<Option<u32>> {
        if iface >= IFACES {
            mark!("calls.release-7");
            return Answer::Refused(7);
        }
        let of_key = |p: &Packet| p.iface == iface && p.addr == addr;
        let at = self.packets.iter().position(of_key);
        match at {
            None => mark!("calls.release-nothing"),
            Some(i) => {
                mark!("calls.release");
                if self.packets.iter().filter(|p| of_key(p)).count() > 1 {
                    mark!("calls.release-oldest-of-several");
                }
                if i > 0 {
                    mark!("calls.release-not-the-first");
                }
            }
        }
        Answer::Done(at.map(|i| self.packets.remove(i).handle))
    }

    pub fn purge_orphans(&mut self) -> Vec<u32> {
        let keeps = |p: &Packet| match self.find(p.iface, p.addr).map(|i| self.neighbours[i].state) {
            None => {
                mark!("calls.orphan-absent");
                false
            }
            Some(State::Stale { .. }) => {
                mark!("calls.orphan-stale");
                false
            }
            Some(State::Started) => {
                mark!("calls.no-orphan-started");
                true
            }
            Some(State::Incomplete { .. }) => {
                mark!("calls.no-orphan-incomplete");
                true
            }
            Some(State::Reachable { .. }) => {
                mark!("calls.no-orphan-reachable");
                true
            }
        };
        let (kept, gone): (Vec<Packet>, Vec<Packet>) = self.packets.iter().partition(|p| keeps(p));
        if gone.len() > 1 && !kept.is_empty() {
            mark!("calls.orphans-several");
        }
        self.packets = kept;
        gone.iter().map(|p| p.handle).collect()
    }

    pub fn purge_iface(&mut self, iface: usize) -> Answer<Vec<u32>> {
        if iface >= IFACES {
            mark!("calls.purge-7");
            return Answer::Refused(7);
        }
        let (gone, kept): (Vec<Packet>, Vec<Packet>) = self.packets.iter().partition(|p| p.iface == iface);
        match (gone.len(), kept.len()) {
            (0, _) => mark!("calls.purge-none"),
            (2.., 1..) => mark!("calls.purge-several"),
            _ => mark!("calls.purge"),
        }
        self.packets = kept;
        Answer::Done(gone.iter().map(|p| p.handle).collect())
    }
}

/// One prefix option of an advertisement.
fn learn_prefix(slaac: &mut Slaac, now: u64, option: &[u8]) {
    let len = option[2];
    let valid = be(&option[4..8]) as u64;
    let preferred = be(&option[8..12]) as u64;
    let given = be(&option[16..32]);
    let addr = prefix_of(option);
    if option[3] & 0x40 == 0 {
        mark!("prefix.not-autonomous");
        if addr != given {
            mark!("length.not-autonomous-bits");
        }
        return;
    }
    if len > 128 {
        mark!("prefix.length-above-128");
        if len == 129 {
            mark!("prefix.length-129");
        }
        return;
    }
    if is_link_local(addr) {
        mark!("prefix.link-local");
        if !is_link_local(given) {
            mark!("bits.link-local");
        }
        return;
    }
    if is_multicast(addr) {
        mark!("prefix.multicast");
        return;
    }
    if preferred > valid {
        mark!("prefix.preferred-above-valid");
        if preferred == valid + 1 {
            mark!("prefix.preferred-above-valid-by-one");
        }
        if preferred == 0xffff_ffff {
            mark!("forever.preferred-with-finite-valid");
        }
        if valid == 0 && slaac.prefixes.iter().any(|p| p.addr == addr && p.len == len) {
            mark!("prefix.preferred-above-valid-zero-known");
        }
        return;
    }
    if option[3] & 0x80 == 0 {
        mark!("prefix.off-link");
    }
    if option[3] & 0x3f != 0 {
        mark!("prefix.reserved-flags");
    }
    match len {
        0 => mark!("length.0"),
        63 => mark!("length.63"),
        65 => mark!("length.65"),
        127 => mark!("length.127"),
        128 => mark!("prefix.length-128"),
        _ => {}
    }
    if len == 128 && addr & 1 == 1 {
        mark!("length.128-last-bit");
    }
    if addr != given {
        match len {
            0 => mark!("bits.length-0"),
            63 => mark!("bits.length-63"),
            64 => mark!("bits.length-64"),
            65 => mark!("bits.length-65"),
            127 => mark!("bits.length-127"),
            _ => {}
        }
        // Of the byte that the length ends in.
        if len % 8 > 0 && addr >> (120 - len / 8 * 8) != given >> (120 - len / 8 * 8) {
            mark!("bits.inside-a-byte");
        }
    }
    let known = slaac.prefixes.iter().position(|p| p.addr == addr && p.len == len);
    if valid > 0 {
        if preferred == valid {
            mark!("prefix.preferred-equals-valid");
        }
        if preferred == 0 {
            mark!("prefix.preferred-zero");
        }
        let entry = Prefix {
            addr,
            len,
            preferred: end(now, preferred),
            valid: end(now, valid),
        };
        match (entry.preferred, entry.valid) {
            (None, None) => mark!("forever.both"),
            (_, None) => mark!("forever.valid"),
            _ => {}
        }
        match known {
            Some(i) => {
                mark!("prefix.refresh");
                if addr != given {
                    mark!("bits.refresh");
                    if slaac.prefixes.len() == PREFIXES {
                        mark!("bits.refresh-in-full-table");
                    }
                    if entry.valid.is_none() {
                        mark!("bits.refresh-forever");
                    }
                }
                let before = slaac.prefixes[i].valid;
                if over(before, now) {
                    mark!("prefix.refresh-expired");
                }
                match (before, entry.valid) {
                    (Some(old), Some(new)) if new < old => mark!("prefix.refresh-shortens"),
                    (None, Some(_)) => mark!("forever.to-finite"),
                    (Some(_), None) => mark!("forever.from-finite"),
                    _ => {}
                }
                slaac.prefixes[i] = entry;
                slaac.sync = true;
            }
            None if slaac.prefixes.len() < PREFIXES => {
                mark!("prefix.append");
                if addr != given {
                    mark!("bits.append");
                }
                if is_link_local(given) {
                    mark!("bits.not-link-local");
                }
                if is_multicast(given) {
                    mark!("bits.not-multicast");
                }
                if slaac.prefixes.iter().any(|p| p.addr == addr) {
                    mark!("prefix.append-other-length");
                }
                if slaac.prefixes.iter().any(|p| p.len == len && p.addr >> 64 == addr >> 64) {
                    mark!("prefix.append-other-low-bytes");
                }
                slaac.prefixes.push(entry);
                slaac.sync = true;
            }
            None => {
                mark!("prefix.full");
                if addr != given {
                    mark!("bits.full");
                }
                if slaac.prefixes.iter().any(|p| over(p.valid, now)) {
                    mark!("prefix.full-with-expired");
                }
            }
        }
    } else {
        match known {
            Some(i) => {
                mark!("prefix.zero");
                if addr != given {
                    mark!("bits.zero");
                }
                if slaac.prefixes[i].valid.is_none() {
                    mark!("forever.to-zero");
                }
                slaac.prefixes[i].preferred = Some(now);
                slaac.prefixes[i].valid = Some(now);
                slaac.sync = true;
            }
            None => mark!("prefix.zero-unknown"),
        }
    }
}

//! Event files by chance, aimed at the rules: the model runs along, so that times can be put next to the deadlines that
//! its tables hold.

use crate::orders::LISTING;
use model::script::{Event, apply};
use model::{Addr, Clock, LATEST, Mac, Model, Phase, State};

/// Splitmix64.
pub struct Rng(u64);

impl Rng {
    pub fn new(seed: u64, number: u64) -> Rng {
        let mut rng = Rng(seed.wrapping_mul(0x9e37_79b9_7f4a_7c15) ^ number.wrapping_mul(0xd134_2543_de82_ef95));
        rng.next();
        rng
    }

    pub fn next(&mut self) -> u64 {
        self.0 = self.0.wrapping_add(0x9e37_79b9_7f4a_7c15);
        let mut z = self.0;
        z = (z ^ z >> 30).wrapping_mul(0xbf58_476d_1ce4_e5b9);
        z = (z ^ z >> 27).wrapping_mul(0x94d0_49bb_1331_11eb);
        z ^ z >> 31
    }

    /// 0 up to `n`, without `n`.
    pub fn below(&mut self, n: u64) -> u64 {
        self.next() % n
    }

    /// One time in `n`.
    pub fn one_in(&mut self, n: u64) -> bool {
        self.below(n) == 0
    }

    pub fn of<T: Copy>(&mut self, items: &[T]) -> T {
        items[self.below(items.len() as u64) as usize]
    }
}

/// How far the files go.
#[derive(Clone, Copy, PartialEq, Eq)]
pub enum Reach {
    /// Where the Rust can be compared.
    Inside,
    /// There, but for bits past a prefix length. What is recorded has some.
    Bits,
    /// Also long lifetimes, times far apart, all of fe80::/10, and bits past a prefix length in every other option.
    Wide,
}

impl Reach {
    pub fn of(wide: bool) -> Reach {
        if wide { Reach::Wide } else { Reach::Inside }
    }
}

/// Which events a file is made of: (weight, event).
#[derive(Clone, Copy)]
enum Kind {
    Up,
    Down,
    Poll,
    Ra,
    Start,
    Sweep,
    Fill,
    Remove,
    Off,
}

const ADVERTISED: &[(u64, Kind)] = &[
    (6, Kind::Up),
    (2, Kind::Down),
    (40, Kind::Poll),
    (40, Kind::Ra),
    (3, Kind::Start),
    (4, Kind::Sweep),
    (3, Kind::Fill),
    (1, Kind::Remove),
    (1, Kind::Off),
];
const RESOLVED: &[(u64, Kind)] = &[
    (25, Kind::Start),
    (50, Kind::Sweep),
    (10, Kind::Fill),
    (6, Kind::Remove),
    (1, Kind::Ra),
    (1, Kind::Poll),
];
const CROWDED: &[(u64, Kind)] = &[
    (45, Kind::Start),
    (14, Kind::Sweep),
    (35, Kind::Fill),
    (3, Kind::Remove),
    (3, Kind::Ra),
];
const MIXED: &[(u64, Kind)] = &[
    (4, Kind::Up),
    (2, Kind::Down),
    (20, Kind::Poll),
    (20, Kind::Ra),
    (15, Kind::Start),
    (20, Kind::Sweep),
    (15, Kind::Fill),
    (5, Kind::Remove),
    (2, Kind::Off),
];

pub struct File {
    mac: Mac,
    addresses: Vec<(Addr, u64)>,
    events: Vec<(u64, Event)>,
}

impl File {
    pub fn text(&self) -> String {
        let mut s = format!("mac {:012x}\naddresses {}\n", self.mac, self.addresses.len());
        for (addr, len) in &self.addresses {
            s += &format!("{addr:032x} {len}\n");
        }
        s += &format!("events {}\n", self.events.len());
        for (time, event) in &self.events {
            s += &format!("{time} {}\n", event.line());
        }
        s
    }
}

struct Maker {
    rng: Rng,
    reach: Reach,
    wide: bool,
    model: Model,
    file: File,
    /// All times lie at or after this one, and before `end` with what is added to them.
    base: u64,
    end: u64,
    now: u64,
    routers: Vec<Addr>,
    prefixes: Vec<Addr>,
    neighbours: Vec<Addr>,
    macs: Vec<Mac>,
    /// Of the routers, prefixes and neighbours only the first few are used.
    few: u64,
    /// The prefix lengths that are used; any, if there are none.
    lens: &'static [u8],
    /// How often an advertisement is malformed: one in this.
    malformed: u64,
    /// How many bytes the events print.
    printed: usize,
}

const LINK_LOCAL: Addr = 0xfe80 << 112;

/// Prefix lengths at borders: of an address, its halves, its bytes, and of fe80::/10.
const LENGTHS: &[u8] = &[0, 1, 7, 8, 9, 10, 63, 64, 65, 100, 127, 128, 129, 255];

/// The longest line, without its newline.
const LINE: usize = crate::events::LINE;

/// The `number`th file of a seed.
pub fn file(seed: u64, number: u64, reach: Reach) -> Vec<u8> {
    let mut maker = Maker::new(Rng::new(seed, number), reach);
    let style = maker.rng.below(16);
    match style {
        0..=4 => maker.mingle(ADVERTISED, 40),
        5..=6 => maker.mingle(RESOLVED, 60),
        7..=8 => maker.crowd(),
        9..=11 => maker.mingle(MIXED, 60),
        12 => {
            maker.malformed = 2;
            maker.mingle(ADVERTISED, 25)
        }
        13 => maker.probe_out(),
        14 => maker.twins(),
        _ => {
            maker.mingle(MIXED, 12);
            let text = maker.file.text();
            return damage(&mut maker.rng, text);
        }
    }
    let mut text = maker.file.text().into_bytes();
    if maker.rng.one_in(20) {
        text.pop();
    }
    text
}

/// A file of three blocks of this many bytes and more, most of it in advertisements of up to the longest line. A reader that fills
/// such a block, and keeps what it has of the last line in front of the next, meets its borders between the two digits of a byte of a
/// longest line, behind a newline and in front of one: leading zeros of times put them there.
pub fn long_input(seed: u64, block: usize) -> Vec<u8> {
    let mut maker = Maker::new(Rng::new(seed, 0), Reach::Inside);
    maker.few = 6;
    let mut lines = Lines::new(&maker.file);
    let mut end = block;
    for border in 0..3 {
        // The line at the border, and how much of it stands in front.
        maker.malformed = u64::MAX;
        let (time, event) = maker.long_advertisement(0);
        maker.malformed = 12;
        let width = LINE - " ".len() - event.line().len();
        let line = format!("{time:0>width$} {}\n", event.line());
        let in_front = [line.len() - 1_002, line.len(), line.len() - 1][border];
        while end - lines.text.len() > in_front + 2 * LINE - 200 {
            lines.long_or_short(&mut maker);
        }
        // Two lines of leading zeros fill up to where it has to begin.
        for share in [2, 1] {
            let (time, width) = (maker.now, (end - lines.text.len() - in_front) / share - " poll\n".len());
            lines.push(&format!("{time:0>width$} poll\n"));
            maker.put(time, Event::Poll);
        }
        let begin = lines.text.len();
        assert_eq!(begin + in_front, end);
        end = block + if in_front < line.len() { begin } else { end };
        lines.push(&line);
        maker.put(time, event);
    }
    for _ in 0..40 {
        lines.long_or_short(&mut maker);
    }
    lines.done()
}

/// A file that prints more than so many bytes: tables of resolutions that run out together, with solicitations and refusals between them.
pub fn long_output(seed: u64, bytes: usize) -> Vec<u8> {
    let mut maker = Maker::new(Rng::new(seed, 0), Reach::Inside);
    maker.few = 30;
    maker.malformed = 3;
    let mut off = false;
    while maker.printed < bytes {
        maker.now += maker.rng.below(700);
        maker.put(maker.now, Event::Up);
        for _ in 0..14 + maker.rng.below(8) {
            let addr = maker.neighbour();
            maker.put(maker.now, Event::Start(addr));
        }
        for _ in 0..4 + maker.rng.below(2) {
            maker.put(maker.now, Event::Sweep);
            maker.now += 1_000 + maker.rng.below(3);
            for _ in 0..maker.rng.below(3) {
                let (time, addr) = (maker.now, maker.neighbour());
                match maker.rng.below(5) {
                    0 => maker.put(time, Event::Fill(addr, 0x0100_5e00_0001)),
                    1 => maker.put(LATEST + 1 + maker.now, Event::Sweep),
                    2 => maker.step(Kind::Ra),
                    _ => maker.put(time, Event::Poll),
                }
            }
        }
        // With SLAAC off a poll and an advertisement say so.
        if !off && maker.printed > bytes / 4 * 3 {
            off = true;
            maker.put(maker.now, Event::Off);
        }
    }
    maker.file.text().into_bytes()
}

/// The text of a file that grows line by line. The count of its events has room in front.
struct Lines {
    text: String,
    count_at: usize,
    events: usize,
}

impl Lines {
    fn new(file: &File) -> Lines {
        let text = file.text();
        let head = text.strip_suffix("0\n").unwrap();
        Lines {
            text: format!("{head}00000\n"),
            count_at: head.len(),
            events: 0,
        }
    }

    fn push(&mut self, line: &str) {
        assert!(line.len() <= LINE + 1 && line.ends_with('\n'));
        self.text += line;
        self.events += 1;
    }

    /// One more event of the maker's.
    fn long_or_short(&mut self, maker: &mut Maker) {
        let (time, event) = maker.long_or_short();
        self.push(&format!("{time} {}\n", event.line()));
        maker.put(time, event);
    }

    fn done(mut self) -> Vec<u8> {
        self.text.replace_range(self.count_at..self.count_at + 5, &format!("{:05}", self.events));
        self.text.into_bytes()
    }
}

/// A link-local address with a sum at the edge of 16 bits: of the pseudo-header alone or with the solicitation, as
/// big-endian words or as little-endian ones.
pub fn carrying(rng: &mut Rng, mac: Mac) -> Addr {
    let addr = LINK_LOCAL | u128::from(rng.next()) & !0xffff;
    let mut words: Vec<u16> = (0..8).map(|i| (addr >> (112 - 16 * i)) as u16).collect();
    words.extend([0xff02, 2, 16, 58]);
    if rng.one_in(2) {
        words.extend([0x8500, 0x0101]);
        words.extend((0..3).map(|i| (mac >> (32 - 16 * i)) as u16));
    }
    let sum: u32 = words.iter().map(|w| u32::from(*w)).sum();
    let target = match rng.below(3) {
        0 => 0xffff,
        1 => 1 + rng.below(5) as u32,
        _ => (1 + rng.below(5) as u32) << 8,
    };
    // The last word brings the sum to the target, carries folded in.
    let last = (target + 0xffff * 17 - sum) % 0xffff;
    addr | u128::from(last)
}

impl Maker {
    fn new(mut rng: Rng, reach: Reach) -> Maker {
        let wide = reach == Reach::Wide;
        let mut mac = match rng.below(4) {
            0 => 0x0200_0000_0001,
            1 => 0x0000_5e00_5301,
            _ => rng.next() & 0xfeff_ffff_ffff,
        };
        if rng.one_in(12) {
            mac |= 1 << 40;
        }
        let base = match rng.below(14) {
            0 => rng.below(1 << 31),
            1 => (1 << 31) - rng.below(20_000),
            2 => (1 << 32) - rng.below(20_000),
            3 => rng.next() >> 3,
            4 => LATEST - rng.below(20_000),
            5 => LATEST - rng.below(3),
            _ => 0,
        };
        let end = if wide { u64::MAX } else { base + (1 << 31) };

        let own = LINK_LOCAL | u128::from(model::eui64(mac));
        let mut routers: Vec<Addr> = (1..=3).map(|i| LINK_LOCAL | i).collect();
        routers.push(LINK_LOCAL | u128::from(rng.next()));
        routers.push(own);
        // The host checks the source: all of fe80::/10 counts, for the Rust as well.
        routers.push(0xfebf << 112 | 7);
        let site: Addr = 0x2001_0db8 << 96;
        let mut prefixes = vec![
            site | 1 << 64,
            site | 1 << 64 | 1,
            site | 2 << 64,
            site | 1 << 64 | u128::from(u64::MAX),
            site | 3 << 64,
            site | 4 << 64,
            0xfd00 << 112 | 5 << 64,
            0,
            site | 6 << 64,
        ];
        // Some files swap what comes first.
        for i in 0..prefixes.len() {
            if rng.one_in(3) {
                let j = rng.below(prefixes.len() as u64) as usize;
                prefixes.swap(i, j);
            }
        }
        let mut neighbours: Vec<Addr> = routers[..3].to_vec();
        for i in 0..20u128 {
            neighbours.push(site | 1 << 64 | 0x100 + i);
        }
        let macs = vec![
            0x0200_0000_00aa,
            0x0200_0000_00bb,
            0x0000_5e00_5355,
            rng.next() & 0xfeff_ffff_ffff,
        ];
        let few = rng.of(&[1, 2, 3, 5, 30]);
        let malformed = rng.of(&[8, 20, 1000]);

        let mut maker = Maker {
            rng,
            reach,
            wide,
            model: Model::new(mac),
            file: File {
                mac,
                addresses: Vec::new(),
                events: Vec::new(),
            },
            base,
            end,
            now: base,
            routers,
            prefixes,
            neighbours,
            macs,
            few,
            lens: &[],
            malformed,
            printed: 0,
        };
        maker.addresses(own);
        maker
    }

    /// Some addresses of the application.
    fn addresses(&mut self, own: Addr) {
        let count = match self.rng.below(10) {
            0 => 0,
            1 => self.rng.below(9),
            2 => 5 + self.rng.below(4),
            _ => 1 + self.rng.below(3),
        };
        let formed = |p: Addr, mac: Mac| p >> 64 << 64 | u128::from(model::eui64(mac));
        for i in 0..count {
            let prefix = self.rng.of(&self.prefixes);
            let likely = i == 0 && !self.rng.one_in(4);
            let addr = match self.rng.below(if likely { 4 } else { 12 }) {
                0..=2 => own,
                3 if self.rng.one_in(2) => carrying(&mut self.rng, self.file.mac),
                3 => LINK_LOCAL | u128::from(self.rng.below(5)),
                4..=6 => formed(prefix, self.file.mac),
                7 => 0x2001_0db8 << 96 | u128::from(self.rng.next()),
                8 if self.rng.one_in(2) => 0,
                8 => 0xff02 << 112 | 1,
                9 if self.wide => 0xfe80 << 112 | u128::from(self.rng.next()) << 54 | 9,
                _ => 0x2001_0db8 << 96 | 9 << 64 | u128::from(self.rng.below(20)),
            };
            let len = match self.rng.below(8) {
                0 => 128,
                1 => self.rng.below(129),
                2 => 48,
                _ => 64,
            };
            if let model::Answer::Done(()) = self.model.add_address(0, addr, len) {
                self.file.addresses.push((addr, len));
            }
        }
    }

    /// The times that the tables hold.
    fn deadlines(&self) -> Vec<u64> {
        let mut times = Vec::new();
        for s in self.model.ifaces.iter().filter_map(|i| i.slaac.as_ref()) {
            for p in &s.prefixes {
                times.extend(p.valid);
                times.extend(p.preferred);
            }
            times.extend(s.routers.iter().map(|r| r.until));
            if let Phase::Discovering { retry } = s.phase {
                times.push(retry);
            }
        }
        for n in &self.model.neighbours {
            match n.state {
                State::Incomplete { due, .. } => times.push(due),
                State::Reachable { until, .. } => times.push(until),
                _ => {}
            }
        }
        times
    }

    /// The time of the next event.
    fn time(&mut self, kind: Kind) -> u64 {
        if self.rng.one_in(60) {
            // Above the latest; some kinds do not mind.
            return match self.rng.below(4) {
                0 => LATEST + 1,
                1 => u64::MAX,
                _ => LATEST + 1 + self.rng.below(u64::MAX - LATEST - 1),
            };
        }
        let mut t = self.now;
        match self.rng.below(12) {
            0..=2 => {}
            3 => t += self.rng.below(3),
            4 => t += self.rng.below(5_000),
            5 => t += self.rng.of(&[999, 1_000, 1_001, 3_999, 4_000, 4_001, 59_999, 60_000]),
            6 if self.rng.one_in(3) => t = t.saturating_sub(self.rng.below(10_000)),
            7 if self.rng.one_in(6) => t += self.rng.below(4_000_000),
            _ => {
                // Next to a deadline: more often a near one.
                let mut times = self.deadlines();
                times.retain(|d| *d + 1 >= self.now);
                times.sort();
                if !times.is_empty() {
                    let near = times.len().min(3) as u64;
                    let i = if self.rng.one_in(3) {
                        self.rng.below(times.len() as u64)
                    } else {
                        self.rng.below(near)
                    };
                    t = (times[i as usize] + self.rng.below(3)).saturating_sub(1);
                }
            }
        }
        if matches!(kind, Kind::Poll | Kind::Sweep) && self.rng.one_in(40) && LATEST - self.base < 1 << 30 {
            t = LATEST;
        }
        t = t.max(self.base);
        // Room for what the calls add.
        if t > LATEST || t + 70_000_000 >= self.end {
            t = self.now;
        }
        self.now = t;
        t
    }

    fn router(&mut self) -> Addr {
        let n = self.few.min(self.routers.len() as u64);
        let i = self.rng.below(n);
        match self.rng.below(60) {
            0 => 0x2001_0db8 << 96 | 1,
            1 => 0xfec0 << 112 | 1,
            2 => 0xff02 << 112 | 1,
            3 => 0,
            4 => self.rng.of(&self.routers),
            _ => self.routers[i as usize],
        }
    }

    fn neighbour(&mut self) -> Addr {
        if self.rng.one_in(40) {
            return self.rng.of(&[0, 0xff02 << 112 | 1, 0xff << 120, 1, 0xfeff << 112 | 3]);
        }
        let n = self.few.min(self.neighbours.len() as u64);
        let i = self.rng.below(n);
        self.neighbours[i as usize]
    }

    /// The handle of a packet: one of a few, which repeat, or any.
    fn handle(&mut self) -> u64 {
        if self.rng.one_in(3) { self.rng.below(4) } else { self.rng.next() >> 32 }
    }

    fn hardware(&mut self) -> Mac {
        match self.rng.below(20) {
            0 => 0xffff_ffff_ffff,
            1 => 0x3333_0000_0001,
            2 => self.rng.next() >> 16,
            3 => 0,
            _ => self.rng.of(&self.macs),
        }
    }

    /// A lifetime in seconds that stays in the range.
    fn seconds(&mut self) -> u64 {
        let room = (self.end - self.now.min(self.end)) / 1000;
        let longest = if self.wide {
            u64::from(u32::MAX)
        } else {
            crate::range::LONGEST.min(room.saturating_sub(1))
        };
        let s = match self.rng.below(16) {
            0..=1 => 0,
            2..=3 => 1,
            4..=8 => 1 + self.rng.below(10),
            9..=10 => 1_800,
            11 => 7_200,
            12 => self.rng.below(100_000),
            13 => longest,
            14 => self.rng.below(longest + 1),
            _ => 2 + self.rng.below(3),
        };
        s.min(longest)
    }

    fn prefix_option(&mut self) -> Vec<u8> {
        let n = self.few.max(2).min(self.prefixes.len() as u64);
        let mut prefix = self.prefixes[self.rng.below(n) as usize];
        if self.rng.one_in(15) {
            prefix = self.rng.of(&[
                LINK_LOCAL,
                LINK_LOCAL | 1 << 8,
                0xff02 << 112,
                0xff << 120,
                0xfe << 120,
                0xfec0 << 112,
                0xfe7f << 112,
            ]);
            if self.wide && self.rng.one_in(2) {
                prefix = 0xfe80 << 112 | u128::from(self.rng.next()) << 54;
            }
        }
        let len = match self.rng.below(20) {
            _ if !self.lens.is_empty() => self.rng.of(self.lens),
            0 => 128,
            1 => 129,
            2 => self.rng.of(&[0, 1, 48, 63, 65, 127, 255]),
            3 => self.rng.below(256) as u8,
            4..=7 if self.wide => self.rng.of(LENGTHS),
            _ => 64,
        };
        if self.wide && len < 10 && self.rng.one_in(2) {
            prefix = self.rng.of(&[LINK_LOCAL, 0xff02 << 112, 0xfec0 << 112, 0xfe00 << 112]);
        }
        let flags = match self.rng.below(12) {
            0 => 0x80,
            1 => 0x40,
            2 => self.rng.below(256) as u8,
            _ => 0xc0,
        };
        let valid = self.seconds();
        let preferred = match self.rng.below(10) {
            0 => valid + 1,
            1 => self.seconds(),
            2..=3 => 0,
            4..=6 => valid,
            _ => self.rng.below(valid + 1),
        };
        let preferred = if self.wide { preferred } else { preferred.min(crate::range::LONGEST) };
        // A prefix that is known and ends now.
        let (valid, preferred) = if self.rng.one_in(8) { (0, self.rng.below(20) / 18) } else { (valid, preferred) };
        let units = if self.rng.one_in(25) { 5 + self.rng.below(3) } else { 4 } as usize;
        let mut option = vec![0; 8 * units];
        option[0] = 3;
        option[1] = units as u8;
        option[2] = len;
        option[3] = flags;
        option[4..8].copy_from_slice(&(valid as u32).to_be_bytes());
        option[8..12].copy_from_slice(&(preferred.min(u64::from(u32::MAX)) as u32).to_be_bytes());
        if self.rng.one_in(5) {
            option[12..16].copy_from_slice(&(self.rng.next() as u32).to_be_bytes());
        }
        let prefix = match self.reach {
            Reach::Inside if flags & 0x40 != 0 => model::cleared(prefix, len),
            Reach::Wide if self.rng.one_in(2) => self.with_bits(prefix, len),
            _ => prefix,
        };
        option[16..32].copy_from_slice(&prefix.to_be_bytes());
        option
    }

    /// The prefix with other bits past its length: any of them, the first, or the last.
    fn with_bits(&mut self, prefix: Addr, len: u8) -> Addr {
        let kept = model::cleared(prefix, len);
        let bits = match self.rng.below(4) {
            0 => 1,
            1 if len < 128 => 1 << (127 - len),
            _ => u128::from(self.rng.next()) << 64 | u128::from(self.rng.next()),
        };
        kept | bits & !model::cleared(u128::MAX, len)
    }

    /// Any option that is well formed.
    fn option(&mut self) -> Vec<u8> {
        match self.rng.below(20) {
            0..=12 => self.prefix_option(),
            13..=16 => {
                let units = if self.rng.one_in(5) { 2 + self.rng.below(3) } else { 1 } as usize;
                let mut option = vec![0; 8 * units];
                option[0] = if self.rng.one_in(6) { 2 } else { 1 };
                option[1] = units as u8;
                let mac = self.hardware();
                option[2..8].copy_from_slice(&mac.to_be_bytes()[2..]);
                for b in &mut option[8..] {
                    *b = self.rng.next() as u8;
                }
                option
            }
            17 => {
                let mut option = vec![0; 48 + 8 * self.rng.below(3) as usize];
                option[0] = 4;
                option[1] = (option.len() / 8) as u8;
                option
            }
            18 => {
                let mut option = vec![5, 1, 0, 0, 0, 0, 5, 0xdc];
                option[7] = self.rng.next() as u8;
                option
            }
            _ => {
                let units = if self.rng.one_in(10) { 200 } else { 1 + self.rng.below(6) };
                let mut option = vec![0; 8 * units as usize];
                option[0] = self.rng.of(&[0, 6, 24, 25, 255]);
                option[1] = units as u8;
                option
            }
        }
    }

    fn advertisement(&mut self) -> Vec<u8> {
        let mut message = vec![0; 16];
        message[0] = 134;
        let random = self.rng.next().to_be_bytes();
        if self.rng.one_in(2) {
            message[8..16].copy_from_slice(&random);
            message[2..4].copy_from_slice(&random[..2]);
            message[4] = 64;
        }
        message[5] = self.rng.of(&[0, 0, 0x40, 0x80, 0xc0, 0x3f, 0xff]);
        let lifetime = match self.rng.below(10) {
            0..=1 => 0,
            2 => 1_800,
            3 => self.rng.of(&[65_535, 65_535, 32_768, 256]),
            4 => self.rng.below(65_536),
            _ => 1 + self.rng.below(8),
        };
        message[6..8].copy_from_slice(&(lifetime as u16).to_be_bytes());
        let options = match self.rng.below(8) {
            0 => 0,
            1..=3 => 1,
            4..=5 => 2,
            6 => 3,
            _ => 2 + self.rng.below(8),
        };
        for _ in 0..options {
            let option = self.option();
            if message.len() + option.len() < 1_900 {
                message.extend(option);
            }
        }
        if self.rng.one_in(self.malformed) {
            self.spoil(&mut message);
        }
        message
    }

    /// An advertisement on a line of up to the longest, by up to `shorter` bytes less. One that is not to be malformed ends with an option.
    fn long_advertisement(&mut self, shorter: u64) -> (u64, Event) {
        let time = self.time(Kind::Ra);
        let source = self.router();
        let head = format!("{time} {}", Event::Ra(source, Vec::new()).line());
        let mut room = (LINE - head.len()) / 2 - self.rng.below(shorter / 2 + 1) as usize;
        if !self.rng.one_in(self.malformed) {
            room -= room % 8;
        }
        let mut message = self.advertisement();
        while message.len() < room {
            let left = room - message.len();
            let mut option = self.option();
            if option.len() > left {
                // What is left, as an option of an unknown type.
                option = (0..left).map(|_| self.rng.next() as u8).collect();
                option[0] = 24;
                if left >= 8 {
                    option.truncate(left / 8 * 8);
                    option[1] = (left / 8) as u8;
                }
            }
            message.extend(option);
        }
        (time, Event::Ra(source, message))
    }

    /// A long advertisement, or more often something short.
    fn long_or_short(&mut self) -> (u64, Event) {
        if self.rng.one_in(12) {
            return self.long_advertisement(3_000);
        }
        let kind = self.rng.of(&[Kind::Poll, Kind::Sweep, Kind::Start, Kind::Fill, Kind::Remove, Kind::Ra, Kind::Up, Kind::Down]);
        let time = self.time(kind);
        (time, self.event(kind))
    }

    /// One reason to refuse a message.
    fn spoil(&mut self, message: &mut Vec<u8>) {
        match self.rng.below(12) {
            0 => message[0] = self.rng.of(&[133, 135, 0, 128]),
            1 => message[1] = 1 + self.rng.below(255) as u8,
            2 => message.truncate(1 + self.rng.below(15) as usize),
            3 => message.truncate(15),
            4..=5 => {
                // Cut somewhere in the options.
                let cut = 16 + self.rng.below(message.len() as u64 - 15) as usize;
                message.truncate(cut);
            }
            _ => {
                // A malformed option at any place between the others.
                let bad: Vec<u8> = match self.rng.below(6) {
                    0 => vec![1; 1 + self.rng.below(7) as usize],
                    1 => vec![self.rng.of(&[1, 3, 5, 9]), 0, 0, 0, 0, 0, 0, 0],
                    2 => {
                        let mut o = self.prefix_option();
                        o.truncate(24);
                        o[1] = 1 + self.rng.below(3) as u8;
                        o
                    }
                    3 => {
                        let mut o = vec![0; 8 * (1 + self.rng.below(5)) as usize];
                        o[0] = 4;
                        o[1] = (o.len() / 8) as u8;
                        o
                    }
                    4 => {
                        let mut o = vec![0; 8 * (1 + self.rng.below(4)) as usize];
                        o[0] = self.rng.of(&[1, 2, 3, 4, 5, 77]);
                        o[1] = (o.len() / 8 + 1) as u8;
                        message.extend(o);
                        return;
                    }
                    _ => vec![self.rng.next() as u8; 8],
                };
                let mut places = vec![16];
                let mut at = 16;
                while let Some((_, option)) = model::option_at(&message[at..]) {
                    at += option.len();
                    places.push(at);
                }
                let place = self.rng.of(&places).min(message.len());
                message.splice(place..place, bad);
            }
        }
        if message.len() > 1_990 {
            message.truncate(1_990);
        }
    }

    fn event(&mut self, kind: Kind) -> Event {
        match kind {
            Kind::Up => Event::Up,
            Kind::Down => Event::Down,
            Kind::Poll => Event::Poll,
            Kind::Ra => {
                let source = self.router();
                Event::Ra(source, self.advertisement())
            }
            Kind::Start => Event::Start(self.neighbour()),
            Kind::Sweep => Event::Sweep,
            Kind::Fill => {
                let addr = self.neighbour();
                Event::Fill(addr, self.hardware())
            }
            Kind::Remove => Event::Remove(self.neighbour()),
            Kind::Off => Event::Off,
        }
    }

    fn put(&mut self, time: u64, event: Event) {
        let mut out = String::new();
        apply(&mut self.model, time, &event, &mut out);
        self.printed += out.len();
        self.file.events.push((time, event));
    }

    fn step(&mut self, kind: Kind) {
        let time = self.time(kind);
        let event = self.event(kind);
        self.put(time, event);
    }

    fn mingle(&mut self, kinds: &[(u64, Kind)], most: u64) {
        let total: u64 = kinds.iter().map(|(w, _)| w).sum();
        if self.rng.one_in(2) {
            self.put(self.base, Event::Up);
        }
        let count = self.rng.below(most);
        for _ in 0..count {
            let mut pick = self.rng.below(total);
            for (weight, kind) in kinds {
                if pick < *weight {
                    self.step(*kind);
                    break;
                }
                pick -= weight;
            }
        }
        if self.rng.one_in(3) {
            self.step(Kind::Poll);
        }
    }

    /// A cache around full, of entries of few or many kinds.
    fn crowd(&mut self) {
        self.few = 30;
        let stock = 13 + self.rng.below(6);
        let kinds = self.rng.below(6);
        let mut order: Vec<Addr> = self.neighbours.clone();
        for i in 0..order.len() {
            let j = self.rng.below(order.len() as u64) as usize;
            order.swap(i, j);
        }
        for i in 0..stock {
            let addr = order[i as usize];
            let fill = match kinds {
                0 => false,
                1 => true,
                2 => self.rng.one_in(8),
                _ => self.rng.one_in(2),
            };
            if self.rng.one_in(3) {
                self.now += self.rng.below(3);
            }
            if fill {
                let mac = self.rng.of(&self.macs);
                self.put(self.now.min(LATEST), Event::Fill(addr, mac));
            } else {
                self.put(self.now, Event::Start(addr));
            }
            if self.rng.one_in(8) {
                self.put(self.now.min(LATEST), Event::Sweep);
            }
        }
        if kinds == 1 && self.rng.one_in(2) {
            self.now += 60_000 + self.rng.below(3);
            self.put(self.now.min(LATEST), Event::Sweep);
        }
        self.now = self.now.min(LATEST);
        self.mingle(CROWDED, 30);
    }

    /// Resolutions that run to their end.
    fn probe_out(&mut self) {
        let n = 1 + self.rng.below(7);
        for i in 0..n {
            let addr = self.neighbours[i as usize];
            self.put(self.now, Event::Start(addr));
            if self.rng.one_in(3) {
                let t = self.time(Kind::Sweep);
                self.put(t, Event::Sweep);
            }
        }
        self.few = n + 1;
        for _ in 0..4 + self.rng.below(16) {
            let due = self.model.neighbours.iter().filter_map(|n| match n.state {
                State::Incomplete { due, .. } => Some(due),
                _ => None,
            });
            let times: Vec<u64> = due.collect();
            let mut t = if times.is_empty() { self.now } else { self.rng.of(&times) };
            t = match self.rng.below(6) {
                0 => t.saturating_sub(1),
                1 => t + 1,
                2 => t + self.rng.below(2_000),
                _ => t,
            };
            t = t.max(self.base).min(LATEST);
            self.now = t;
            self.put(t, Event::Sweep);
            if self.rng.one_in(6) {
                let kind = self.rng.of(&[Kind::Start, Kind::Fill, Kind::Remove]);
                self.step(kind);
            }
        }
    }

    /// Prefixes of one upper half, in both orders, with short lifetimes. Their lengths are above 64, where they are entries of their own,
    /// or 64 as well, where they are one.
    fn twins(&mut self) {
        self.put(self.base, Event::Up);
        let site: Addr = 0x2001_0db8 << 96;
        self.prefixes = vec![site | 1 << 64, site | 1 << 64 | 1, site | 2 << 64, site | 1 << 64 | 2];
        match self.reach {
            Reach::Inside => self.lens = &[64, 127, 128, 128],
            Reach::Bits => {}
            Reach::Wide => self.lens = &[64, 64, 64, 64, 63, 65, 127, 128],
        }
        self.few = 2 + self.rng.below(3);
        for _ in 0..2 + self.rng.below(20) {
            if self.rng.one_in(2) {
                self.step(Kind::Ra);
            } else {
                self.step(Kind::Poll);
            }
        }
    }
}

/// A file with one thing wrong, or odd, in its format.
fn damage(rng: &mut Rng, text: String) -> Vec<u8> {
    let mut lines: Vec<String> = text.lines().map(|l| l.to_string()).collect();
    let at = rng.below(lines.len() as u64) as usize;
    let count_line = |lines: &[String], word: &str| lines.iter().position(|l| l.starts_with(word)).unwrap();
    match rng.below(30) {
        0 => return Vec::new(),
        1 => lines.insert(at, String::new()),
        2 => lines.push(String::new()),
        3 => lines[at].push('\r'),
        4 => lines.iter_mut().for_each(|l| l.push('\r')),
        5 => lines[at] = lines[at].replacen(' ', "  ", 1),
        6 => lines[at].insert(0, ' '),
        7 => lines[at].push(' '),
        8 => {
            lines.remove(at);
        }
        9 => {
            let again = lines[at].clone();
            lines.insert(at, again);
        }
        10 => lines.push("0 poll".into()),
        11 => {
            let i = count_line(&lines, "events");
            let n = rng.of(&[0, 1, 2, 3, 1000, u64::MAX]);
            lines[i] = format!("events {n}");
        }
        12 => {
            let word = if rng.one_in(2) { "events" } else { "addresses" };
            let i = count_line(&lines, word);
            lines[i] = format!("{word} {}", rng.of(&["18446744073709551616", "99999999999999999999999", "-1", "+1", "x", "0x1", ""]));
        }
        13 => {
            let i = count_line(&lines, "addresses");
            lines[i] = format!("addresses {}", rng.of(&[0, 1, 2, 9, 10, u64::MAX]));
        }
        14 => {
            // Nine addresses, or eight and one of them again.
            let i = count_line(&lines, "addresses");
            let j = count_line(&lines, "events");
            let n = 9 + rng.below(2);
            let mut new: Vec<String> = (0..n).map(|k| format!("{:032x} 64", (0x2001_0db8u128 << 96) | u128::from(k))).collect();
            if rng.one_in(2) {
                new[8] = new[rng.below(8) as usize].clone();
            }
            new.insert(0, format!("addresses {n}"));
            lines.splice(i..j, new);
        }
        15 => {
            // An address of the application that number 14 or 9 refuses, or an odd one.
            let i = count_line(&lines, "addresses");
            let j = count_line(&lines, "events");
            let mut new = vec![format!("{:032x} 64", 0xfe80u128 << 112 | 1)];
            new.push(match rng.below(8) {
                0 => new[0].clone(),
                1 => format!("{:032x} 129", 0xfe80u128 << 112 | 2),
                2 => format!("{:032x} 18446744073709551616", 0xfe80u128 << 112 | 2),
                3 => format!("{:032x}", 0xfe80u128 << 112 | 2),
                4 => format!("{:032x} 64 static", 0xfe80u128 << 112 | 2),
                5 => format!("{:031x} 64", 0xfe80u128 << 108 | 2),
                6 => format!("{:032x} 0128", 0xfe80u128 << 112 | 2),
                _ => format!("{:032x} 63", 0xfe80u128 << 112 | 1),
            });
            new.insert(0, format!("addresses {}", new.len()));
            lines.splice(i..j, new);
        }
        16 => lines[at] = lines[at].to_uppercase(),
        17 => {
            // Upper case where it is allowed.
            for l in lines.iter_mut() {
                let words: Vec<String> = l
                    .split(' ')
                    .map(|w| if w.len() >= 12 { w.to_uppercase() } else { w.to_string() })
                    .collect();
                *l = words.join(" ");
            }
        }
        18 => {
            lines[at].pop();
        }
        19 => lines[at].push(rng.of(&['0', 'a', 'g', '\t', '-', '\u{e9}', '\0'])),
        20 => {
            let i = count_line(&lines, "events");
            let line = rng.of(&[
                "0",
                "0 ",
                "0 nothing",
                "x poll",
                "-1 poll",
                "18446744073709551616 poll",
                "18446744073709551615 up",
                "0 poll 1",
                "0 up up",
                "0 ra",
                "0 ra fe800000000000000000000000000001",
                "0 ra fe800000000000000000000000000001 8",
                "0 ra fe800000000000000000000000000001 86 00",
                "0 ra fe80000000000000000000000000001 86",
                "0 start",
                "0 start 1",
                "0 start fe800000000000000000000000000001 1",
                "0 fill fe800000000000000000000000000001",
                "0 fill fe800000000000000000000000000001 02000000000",
                "0 fill fe800000000000000000000000000001 0200000000010",
                "0 remove",
                "0 off 1",
                "0 sweep 0",
                "0 down 0",
                "poll",
                "0 POLL",
                "0\tpoll",
                "00000000000000000000000000000000000000000000007 up",
                "0 ra fe800000000000000000000000000001 zz",
                "0 start fe80000000000000000000000000000g",
            ]);
            lines[i] = format!("events {}", lines.len() - i);
            lines.push(line.into());
        }
        21..=23 => {
            // A long line, by leading zeros.
            let i = count_line(&lines, "events");
            let length = rng.of(&[4_095, 4_096, 4_097, 5_000]);
            let line = format!("{}7 poll", "0".repeat(length - 6));
            lines[i] = format!("events {}", lines.len() - i);
            lines.push(line);
        }
        24 => {
            // A long line, by its message.
            let i = count_line(&lines, "events");
            let length = rng.of(&[4_094, 4_096, 4_098]);
            let head = format!("{} ra {:032x} ", rng.of(&["7", "77"]), 0xfe80u128 << 112 | 1);
            let digits = length - head.len();
            let mut message = "86000000000007080000000000000000".to_string();
            while message.len() + 16 <= digits {
                message += "0501000000000500";
            }
            while message.len() + 2 <= digits {
                message += "00";
            }
            lines[i] = format!("events {}", lines.len() - i);
            lines.push(head + &message);
        }
        25 => {
            let mut bytes = (lines.join("\n") + "\n").into_bytes();
            let i = rng.below(bytes.len() as u64) as usize;
            bytes[i] = rng.next() as u8;
            return bytes;
        }
        26 => {
            let mut bytes = (lines.join("\n") + "\n").into_bytes();
            bytes.truncate(rng.below(bytes.len() as u64) as usize);
            return bytes;
        }
        27 => {
            let i = rng.of(&[0, 1, count_line(&lines, "events")]);
            lines[i] = match rng.below(5) {
                0 => lines[i].split(' ').next().unwrap().to_string(),
                1 => format!("{} 1", lines[i]),
                2 => lines[i].replacen(' ', "\t", 1),
                3 => format!("x{}", lines[i]),
                _ => lines[i].split(' ').next_back().unwrap().to_string(),
            };
        }
        28 => {
            for l in lines.iter_mut().filter(|l| l.as_bytes()[0].is_ascii_digit()) {
                if l.split(' ').next().unwrap().len() < 20 {
                    l.insert_str(0, "00");
                }
            }
        }
        _ => {
            let i = rng.below(lines.len() as u64) as usize;
            lines.swap(at, i);
        }
    }
    (lines.join("\n") + "\n").into_bytes()
}

// ---- single calls

/// What a sequence of calls is mostly made of.
#[derive(Clone, Copy)]
enum Style {
    Options,
    Messages,
    Clock,
    Cache,
    Crowd,
    Queue,
    Slaac,
    Card,
    Mixed,
}

const STYLES: &[Style] = &[
    Style::Options,
    Style::Messages,
    Style::Clock,
    Style::Cache,
    Style::Crowd,
    Style::Queue,
    Style::Slaac,
    Style::Slaac,
    Style::Card,
    Style::Card,
    Style::Mixed,
    Style::Mixed,
];

/// The `number`th sequence of calls that is compared: each eighth clears interfaces in two orders.
pub fn sequence(seed: u64, number: u64, reach: Reach) -> Vec<String> {
    if number % 8 == 7 { orders(seed, number, reach) } else { calls(seed, number, reach) }
}

/// Lines that grow one by one, each answered by the model.
struct Answered {
    side: crate::calls::Modelled,
    lines: Vec<String>,
}

impl Answered {
    /// A `new`.
    fn begun(maker: &Maker) -> Answered {
        let mut answered = Answered { side: crate::calls::Modelled::default(), lines: Vec::new() };
        answered.put(format!("new {:012x} {}", maker.file.mac, maker.base));
        answered
    }

    fn put(&mut self, line: String) {
        crate::calls::answer(&mut self.side, &line);
        self.lines.push(line);
    }
}

/// The `number`th sequence of calls of a seed, a line each; some do not read.
pub fn calls(seed: u64, number: u64, reach: Reach) -> Vec<String> {
    let mut maker = Maker::new(Rng::new(seed ^ 0x6361_6c6c, number), reach);
    let mut answered = Answered::begun(&maker);
    let style = maker.rng.of(STYLES);
    // Few addresses, so that keys meet on several interfaces; many for a full cache.
    if matches!(style, Style::Crowd) {
        maker.few = 30;
    }
    if matches!(style, Style::Card) && !maker.rng.one_in(4) {
        let own = LINK_LOCAL | u128::from(model::eui64(maker.file.mac));
        answered.put(format!("address 0 {own:032x} 64"));
        answered.put("link 0 up".into());
    }
    // Some begin with a table that is full or almost.
    let crowd = if maker.rng.one_in(4) { 7 + maker.rng.below(3) } else { 0 };
    let crowd_of_routes = maker.rng.one_in(2);
    for i in 0..10 + maker.rng.below(80) {
        maker.model = answered.side.0.clone();
        let line = if i < crowd && crowd_of_routes {
            format!("routeto {} {:032x} 32 {:032x}", i % 4, 0x2001_0db8u128 << 96, LINK_LOCAL | u128::from(i))
        } else if i < crowd {
            format!("address 0 {:032x} 64", 0x2001_0db8u128 << 96 | u128::from(i))
        } else {
            maker.call(style, answered.side.1)
        };
        let line = match maker.rng.below(50) {
            0 => bad_call(&mut maker.rng, &line),
            1 => other_digits(&mut maker.rng, &line),
            _ => line,
        };
        answered.put(line);
    }
    let mut lines = answered.lines;
    for dump in ["cache", "neighbors", "queue", "routes", "destinations", "now"] {
        lines.push(dump.into());
    }
    for iface in 0..4 {
        for dump in ["slaac", "prefixes", "routers", "addresses", "source"] {
            lines.push(format!("{dump} {iface}"));
        }
    }
    lines
}

/// How an interface is cleared.
const CLEARING: &[&[&str]] = &[&["clear", "purge"], &["purge", "clear"], &["clear"], &["purge"], &["off"], &["off"]];

/// Interfaces cleared in two orders, on copies of one state: each copy begins with `new`, and the same lines make it. As a rule a third copy
/// follows, on which one is cleared twice or orphans are purged twice.
pub fn orders(seed: u64, number: u64, reach: Reach) -> Vec<String> {
    let mut maker = Maker::new(Rng::new(seed ^ 0x6f72_6465, number), reach);
    let ifaces = maker.some_interfaces();
    let state = maker.state(&ifaces);
    let steps = maker.steps(&ifaces);
    // Reversed, and of four then one, two or none brought from the front to the back: never the first order.
    let mut other = steps.clone();
    other.reverse();
    let by = maker.rng.below(other.len() as u64 - 1) as usize;
    other.rotate_left(by);
    let (again, orphans) = (vec![steps[0].clone(); 2], vec![vec!["orphans".to_string()]; 2]);
    let mut copies = vec![steps, other];
    match maker.rng.below(5) {
        0 => {}
        1 => copies.push(again),
        2 => copies.push(orphans),
        3 => copies.push([orphans.clone(), again, orphans].concat()),
        // Against two caches: there the second may find some.
        _ => copies.push(vec![orphans[0].clone(), maker.another_cache(), orphans[0].clone()]),
    }
    let mut lines = Vec::new();
    for steps in copies {
        lines.extend(state.clone());
        for step in steps {
            lines.extend(LISTING.map(String::from));
            lines.extend(step);
        }
        lines.extend(LISTING.map(String::from));
        for iface in &ifaces {
            lines.extend(["slaac", "addresses"].map(|word| format!("{word} {iface}")));
        }
    }
    lines
}

/// A line that does not read, as a rule.
fn bad_call(rng: &mut Rng, line: &str) -> String {
    let fields: Vec<&str> = line.split(' ').collect();
    // Any but the word, if there is one.
    let field = |rng: &mut Rng| if fields.len() > 1 { 1 + rng.below(fields.len() as u64 - 1) as usize } else { 0 };
    let with = |at: usize, text: &str| {
        let mut fields = fields.clone();
        fields[at] = text;
        fields.join(" ")
    };
    match rng.below(18) {
        0 => format!("x{line}"),
        1 => with(0, &fields[0].to_uppercase()),
        2 => with(0, &fields[0][..fields[0].len() - 1]),
        3..=4 => fields[..fields.len() - 1].join(" "),
        5 => format!("{line} 0"),
        6 => {
            let at = field(rng);
            with(at, &format!(" {}", fields[at]))
        }
        7 => format!(" {line}"),
        8 => format!("{line} "),
        9 => {
            let at = field(rng);
            with(at, rng.of(&["-", "+1", "-1", "18446744073709551616", "0x1", "1,000", "99999999999999999999999"]))
        }
        10 => with(1.min(fields.len() - 1), rng.of(&["256", "0256", "65536"])),
        11 => {
            let at = field(rng);
            with(at, &fields[at][1..])
        }
        12 => {
            let at = field(rng);
            with(at, &format!("{}0", fields[at]))
        }
        13 => {
            let at = field(rng);
            with(at, &format!("g{}", &fields[at][1..]))
        }
        14 => format!("{line}{}", rng.of(&["\r", "\t", "\u{e9}", "\0", "\u{a0}"])),
        15 => line.replacen(' ', "\t", 1),
        16 => {
            // Around the longest line, which reads: eight bytes of word, two behind the digits.
            let digits = LINE - "options ".len() - " 0".len() + rng.of(&[0, 2, 2, 6_000]);
            format!("options {} 0", "0".repeat(digits))
        }
        _ => String::new(),
    }
}

/// The same call with digits of upper case and leading zeros, as a rule.
fn other_digits(rng: &mut Rng, line: &str) -> String {
    let mut fields = line.split(' ');
    let mut other = fields.next().unwrap_or("").to_string();
    for field in fields {
        let number = field.bytes().all(|b| b.is_ascii_digit()) && ![12, 32].contains(&field.len());
        other.push(' ');
        if number && rng.one_in(3) {
            other += "000";
        }
        let digits = field.bytes().all(|b| b.is_ascii_hexdigit()) && field.len() % 2 == 0;
        other += &if digits { field.to_uppercase() } else { field.to_string() };
    }
    other
}

impl Maker {
    fn call(&mut self, style: Style, clock: Clock) -> String {
        let iface = match self.rng.below(40) {
            0 => self.rng.of(&[4, 5, 128, 255]),
            n => n % self.rng.of(&[1, 2, 4]),
        };
        match style {
            Style::Options => self.option_call(),
            Style::Messages => self.message_call(),
            Style::Clock => match self.rng.below(6) {
                0 => self.cache_call(iface),
                1 => self.slaac_call(iface),
                _ => self.clock_call(clock),
            },
            Style::Cache | Style::Crowd => self.cache_call(iface),
            Style::Queue => self.queue_call(iface),
            Style::Slaac => self.slaac_call(iface),
            Style::Card => match self.rng.below(20) {
                0 => self.queue_call(0),
                1 => self.slaac_call(0),
                2 => self.cache_call(iface),
                3..=5 => self.run_call(),
                _ => self.turn_call(),
            },
            Style::Mixed => match self.rng.below(12) {
                0..=2 => self.cache_call(iface),
                3..=5 => self.queue_call(iface),
                6..=9 => self.slaac_call(iface),
                10 => self.turn_call(),
                _ => self.clock_call(clock),
            },
        }
    }

    /// Interfaces to clear: as a rule two different ones; now and then one of them twice, one or both above 3, or all four.
    fn some_interfaces(&mut self) -> Vec<u64> {
        let one = self.rng.below(4);
        let other = (one + 1 + self.rng.below(3)) % 4;
        let above = |n: u64| [4, 5, 128, 255][n as usize];
        match self.rng.below(12) {
            0 => vec![one, one],
            1 => vec![one, above(other)],
            2 => vec![above(one), above(other)],
            3 => {
                let mut all = vec![0, 1, 2, 3];
                all.swap(0, one as usize);
                all
            }
            _ => vec![one, other],
        }
    }

    /// A step for each: as a rule all in one way. An interface that comes twice is cleared in two ways, so that there are two orders.
    fn steps(&mut self, ifaces: &[u64]) -> Vec<Vec<String>> {
        let alike = if self.rng.one_in(5) { None } else { Some(self.rng.of(CLEARING)) };
        let mut ways: Vec<&[&str]> = ifaces.iter().map(|_| alike.unwrap_or_else(|| self.rng.of(CLEARING))).collect();
        if ifaces[0] == ifaces[1] {
            let others: Vec<&[&str]> = CLEARING.iter().copied().filter(|way| *way != ways[0]).collect();
            ways[1] = self.rng.of(&others);
        }
        let step = |(way, iface): (&&[&str], &u64)| -> Vec<String> { way.iter().map(|word| format!("{word} {iface}")).collect() };
        ways.iter().zip(ifaces).map(step).collect()
    }

    /// Lines that make a state, much of it on these interfaces: addresses and routes of SLAAC, entries, waiting packets.
    fn state(&mut self, ifaces: &[u64]) -> Vec<String> {
        let mut answered = Answered::begun(self);
        for iface in 0..4 {
            if self.rng.one_in(3) {
                answered.put(format!("route {iface} {:032x}", LINK_LOCAL | 1));
            }
            // An address and a route, one of them, or none.
            let kind = self.rng.below(5);
            if kind > 3 {
                continue;
            }
            let mut message = vec![134, 0, 0, 0, 64, 0, 0, if kind == 0 { 0 } else { 9 }, 0, 0, 0, 0, 0, 0, 0, 0];
            if kind < 3 {
                message.extend([3, 4, 64, 0xc0, 0, 0, 0, 9, 0, 0, 0, 5, 0, 0, 0, 0]);
                message.extend((0x2001_0db8u128 << 96 | u128::from(self.rng.below(3)) << 64).to_be_bytes());
            }
            let router = LINK_LOCAL | u128::from(1 + self.rng.below(2));
            answered.put(format!("ra {iface} {router:032x} {} {}", self.now, crate::text::hex(&message)));
            answered.put(format!("poll {iface} {} - 16", self.now));
        }
        for _ in 0..8 + self.rng.below(25) {
            self.model = answered.side.0.clone();
            let iface = if self.rng.one_in(3) { self.rng.below(4) } else { self.rng.of(ifaces) };
            let line = match self.rng.below(16) {
                0..=4 => {
                    let handle = self.handle();
                    format!("push {iface} {:032x} {handle}", self.neighbour())
                }
                5..=9 => format!("start {iface} {:032x}", self.neighbour()),
                10..=11 => {
                    let (addr, mac) = (self.neighbour(), self.hardware());
                    format!("fill {iface} {addr:032x} {mac:012x} {}", self.now.min(LATEST))
                }
                12 => self.cache_call(iface),
                13 => self.queue_call(iface),
                14 => self.slaac_call(iface),
                _ => self.call(Style::Mixed, answered.side.1),
            };
            let line = if self.rng.one_in(50) { bad_call(&mut self.rng, &line) } else { line };
            answered.put(line);
        }
        if self.rng.one_in(3) {
            self.full_tables(ifaces).into_iter().for_each(|line| answered.put(line));
        }
        answered.lines
    }

    /// Lines after which the cache and the queue are full, whatever they held: as many entries as the cache has room for, each of another key,
    /// and as many packets as the queue has room for, one for every other entry. They are of these interfaces or any, none above 3.
    fn full_tables(&mut self, ifaces: &[u64]) -> Vec<String> {
        let known: Vec<u64> = ifaces.iter().copied().filter(|iface| *iface < 4).collect();
        let first = self.rng.below(self.neighbours.len() as u64) as usize;
        let mut lines = Vec::new();
        for i in 0..model::NEIGHBOURS {
            let iface = if known.is_empty() || self.rng.one_in(2) { self.rng.below(4) } else { self.rng.of(&known) };
            let addr = self.neighbours[(first + i) % self.neighbours.len()];
            lines.push(match self.rng.below(3) {
                0 => format!("fill {iface} {addr:032x} {:012x} {}", self.rng.of(&self.macs), self.now.min(LATEST)),
                _ => format!("start {iface} {addr:032x}"),
            });
            if i * model::PACKETS % model::NEIGHBOURS == 0 {
                lines.push(format!("push {iface} {addr:032x} {}", self.handle()));
            }
        }
        lines
    }

    /// Lines after which packets may be orphans that were none.
    fn another_cache(&mut self) -> Vec<String> {
        let now = (self.now + 61_000).min(LATEST);
        let line = |maker: &mut Maker| match maker.rng.below(3) {
            0 => format!("clear {}", maker.rng.below(4)),
            1 => format!("sweep 0 {now} -"),
            _ => format!("remove {} {:032x}", maker.rng.below(4), maker.neighbour()),
        };
        (0..1 + self.rng.below(4)).map(|_| line(self)).collect()
    }

    /// Near what a clock has to compare with; inside the range if it must be.
    fn near(&mut self, clock: Clock) -> u64 {
        let mut times = self.deadlines();
        times.extend([clock.now, clock.now]);
        times.extend(clock.deadline);
        let t = self.rng.of(&times);
        let t = match self.rng.below(8) {
            0 => t.saturating_add(self.rng.below(100_000)),
            1 => t.saturating_sub(self.rng.below(100_000)),
            _ => t.saturating_add(self.rng.below(3)).saturating_sub(1),
        };
        if self.wide {
            return if self.rng.one_in(20) { self.rng.next() >> self.rng.below(64) } else { t };
        }
        t.clamp(self.base, self.end - 2)
    }

    fn clock_call(&mut self, clock: Clock) -> String {
        let outside = clock.now < self.base || clock.now > self.end - 3;
        match self.rng.below(10) {
            _ if outside && !self.wide => {
                let now = self.now;
                format!("clock {now} {}", self.deadline())
            }
            0 => {
                let now = self.time(Kind::Sweep);
                let now = if self.wide { now } else { now.min(self.end - 3) };
                format!("clock {now} {}", self.deadline())
            }
            1 => "now".into(),
            2..=5 => format!("expired {}", self.near(clock)),
            6..=8 => {
                let t = self.near(clock);
                // The Rust asserts that it is after now.
                format!("schedule {}", if self.wide { t } else { t.max(clock.now + 1) })
            }
            _ => {
                let spread = |rng: &mut Rng| rng.next() >> rng.below(64);
                let (time, millis) = (spread(&mut self.rng), spread(&mut self.rng));
                match self.rng.below(5) {
                    0 => format!("add {time} {}", u64::MAX - time),
                    1 => format!("add {time} {}", (u64::MAX - time).saturating_add(1 + self.rng.below(3))),
                    2 => format!("add {time} {}", self.rng.of(&[1_000, 60_000, 1 << 30, (1 << 30) + 1, 1 << 31, u64::from(u32::MAX) * 1000])),
                    _ => format!("add {time} {millis}"),
                }
            }
        }
    }

    /// An address of any kind.
    fn any_address(&mut self) -> Addr {
        let low = u128::from(self.rng.next());
        match self.rng.below(12) {
            0 => 0,
            1 => model::ALL_ROUTERS,
            2 => model::ALL_ROUTERS ^ 1 << self.rng.below(128),
            3 => 1 << self.rng.below(128),
            4 => LINK_LOCAL | low,
            5 if self.wide => 0xfe80 << 112 | low << 54 | 9,
            5..=6 => self.rng.of(&[0xfe7f << 112, 0xfec0 << 112, 0xfeff << 112, 0xfdff << 112, 0xfe00 << 112]) | low,
            7 => 0xff << 120 | low << self.rng.below(56),
            8 => self.neighbour(),
            _ => self.rng.of(&self.prefixes) | low,
        }
    }

    fn message_call(&mut self) -> String {
        let hex = |b: &[u8]| if b.is_empty() { "-".into() } else { crate::text::hex(b) };
        match self.rng.below(20) {
            0..=2 => format!("kind {:032x}", self.any_address()),
            3 => {
                let mac = self.hardware();
                format!("hardware {mac:012x}")
            }
            // What is recorded by chance has none.
            4..=5 if self.reach != Reach::Bits && self.rng.one_in(2) => {
                let len = if self.rng.one_in(2) { self.rng.of(LENGTHS) } else { self.rng.below(256) as u8 };
                let len = if self.wide { len } else { len.min(128) };
                let addr = match self.rng.below(4) {
                    0 => u128::MAX,
                    1 => model::cleared(self.any_address(), len),
                    _ => self.any_address() ^ u128::from(self.rng.next()) << self.rng.below(65),
                };
                format!("mask {addr:032x} {len}")
            }
            4..=5 => {
                let prefix = self.rng.of(&self.prefixes) | u128::from(self.rng.next() >> self.rng.below(64));
                let len = self.rng.of(&[64, 64, 64, 63, 65, 0, 128, 129, 255, 48]);
                format!("form {prefix:032x} {len} {:012x}", self.hardware())
            }
            6..=7 => {
                let (mac, high) = (self.hardware(), u128::from(self.rng.next()));
                let formed = high << 64 | u128::from(model::eui64(mac));
                let addr = match self.rng.below(4) {
                    0 => formed,
                    1 => formed ^ 1 << self.rng.below(64),
                    2 => formed ^ 1 << (64 + self.rng.below(64)),
                    _ => self.any_address(),
                };
                if self.rng.one_in(4) {
                    let other = if self.rng.one_in(2) { mac } else { mac ^ 1 << self.rng.below(48) };
                    return format!("same {mac:012x} {other:012x}");
                }
                format!("formed {addr:032x} {mac:012x}")
            }
            8..=9 => {
                let mut message = self.advertisement();
                if message.len() >= 16 && self.rng.one_in(3) {
                    self.spoil(&mut message);
                }
                format!("advert {}", hex(&message))
            }
            10..=14 => {
                let mut message = self.advertisement();
                if message.len() >= 16 && self.rng.one_in(3) {
                    self.spoil(&mut message);
                }
                let mut places = vec![16, message.len(), message.len() + 1, usize::MAX];
                let mut at = 16;
                while let Some((_, option)) = message.get(at..).and_then(model::option_at) {
                    at += option.len();
                    places.push(at);
                    places.push(at);
                }
                if self.rng.one_in(10) {
                    places = vec![self.rng.below(40) as usize, 0];
                }
                self.clear_prefixes(&mut message, 16);
                let word = self.rng.of(&["options", "next", "next"]);
                format!("{word} {} {}", hex(&message), self.rng.of(&places))
            }
            15..=17 => {
                let mut message = self.some_message();
                let (source, destination) = (self.any_address(), if self.rng.one_in(2) { model::ALL_ROUTERS } else { self.any_address() });
                if message.len() >= 2 && self.rng.one_in(4) {
                    // A word that makes the sum all ones.
                    let at = 2 * self.rng.below(message.len() as u64 / 2) as usize;
                    message[at..at + 2].fill(0);
                    let word = model::checksum(source, destination, &message);
                    message[at..at + 2].copy_from_slice(&word.to_be_bytes());
                }
                format!("checksum {source:032x} {destination:032x} {}", hex(&message))
            }
            _ => {
                let mut message = model::solicitation(LINK_LOCAL | 1, self.file.mac).to_vec();
                match self.rng.below(6) {
                    0 => message[0] = self.rng.of(&[132, 134, 5]),
                    1 => message[1] = 1 << self.rng.below(8),
                    2 => message.truncate(self.rng.of(&[0, 1, 7, 8, 9])),
                    _ => {}
                }
                let destination = if self.rng.one_in(3) { self.any_address() } else { model::ALL_ROUTERS };
                format!("solicitation {} {destination:032x}", hex(&message))
            }
        }
    }

    /// Bytes of any kind: none, few, as many as a line takes.
    fn some_message(&mut self) -> Vec<u8> {
        let fill = self.rng.of(&[0, 0xff, 1, 1]);
        let len = match self.rng.below(8) {
            0 => 0,
            1 => 1_990 + self.rng.below(10),
            2 => 1_400,
            _ => self.rng.below(64),
        };
        (0..len).map(|_| if fill == 1 { self.rng.next() as u8 } else { fill }).collect()
    }

    fn input(&mut self) -> String {
        match self.rng.below(20) {
            0..=6 => {
                let now = self.time(Kind::Start);
                let handle = self.handle();
                format!("{now} packet {:032x} {handle}", self.neighbour())
            }
            7..=10 => {
                let now = self.time(Kind::Fill);
                format!("{now} answer {:032x} {:012x}", self.neighbour(), self.hardware())
            }
            11..=13 => {
                let now = self.time(Kind::Ra);
                // Behind three more on one line.
                let mut message = self.advertisement();
                message.truncate(400);
                let source = if self.rng.one_in(3) { self.neighbour() } else { self.router() };
                format!("{now} advert {source:032x} {}", crate::text::hex(&message))
            }
            14 => format!("{} linkup", self.time(Kind::Up)),
            _ => format!("{} timer", self.time(Kind::Poll)),
        }
    }

    fn room(&mut self) -> u64 {
        self.rng.of(&[0, 1, 15, 16, 16, 16, 17, 1_500, 2_048, 2_049, u64::MAX])
    }

    fn turn_call(&mut self) -> String {
        format!("turn {} {}", self.room(), self.input())
    }

    fn run_call(&mut self) -> String {
        let budget = self.rng.of(&[0, 1, 2, 3, 4, 4, 9, u64::MAX]);
        let mut line = format!("run {} {budget} {}", self.room(), self.deadline());
        // Five are too many.
        let inputs = if self.rng.one_in(30) { 5 } else { self.rng.of(&[0, 1, 2, 3, 4, 4, 4]) };
        for _ in 0..inputs {
            line += " ";
            line += &self.input();
        }
        line
    }

    fn deadline(&mut self) -> String {
        match self.rng.below(3) {
            0 => "-".into(),
            1 => {
                let times = self.deadlines();
                let t = if times.is_empty() { self.now } else { self.rng.of(&times) };
                t.to_string()
            }
            _ => (self.now + self.rng.below(70_000)).to_string(),
        }
    }

    fn option_call(&mut self) -> String {
        let hex = |b: &[u8]| if b.is_empty() { "-".into() } else { crate::text::hex(b) };
        if self.rng.one_in(6) {
            let len = self.rng.of(&[0, 15, 16, 16, 16, 17, 40]);
            let buffer: Vec<u8> = (0..len).map(|_| self.rng.next() as u8).collect();
            let mac = if self.rng.one_in(2) { self.file.mac } else { self.rng.next() >> 16 };
            let source = if self.wide && self.rng.one_in(3) {
                self.any_address()
            } else if self.rng.one_in(3) {
                LINK_LOCAL | u128::from(self.rng.next())
            } else {
                carrying(&mut self.rng, mac)
            };
            return format!("solicit {} {source:032x} {mac:012x}", hex(&buffer));
        }
        if self.rng.one_in(3) {
            let len = self.rng.of(&[0, 7, 8, 9, 15, 31, 32, 33, 40, 64]);
            let message: Vec<u8> = (0..len).map(|_| self.rng.next() as u8).collect();
            let kind = self.rng.of(&[1u64, 2, 3, 3, 5]);
            let size = if kind == 3 { 32 } else { 8 };
            let place = match self.rng.below(6) {
                0 => self.rng.below(70),
                1 => u64::MAX,
                2 => (len + 1u64).saturating_sub(size),
                3 => 0,
                _ => len.saturating_sub(size),
            };
            let rest = match kind {
                1 | 2 => format!("{:012x}", self.hardware()),
                3 => {
                    let prefix = self.rng.of(&self.prefixes) | u128::from(self.rng.next());
                    let (a, b) = (self.seconds(), self.seconds());
                    format!("{} {} {a} {b} {prefix:032x}", self.rng.below(256), self.rng.below(256))
                }
                _ => format!("{}", self.rng.next() as u32),
            };
            return format!("write {} {place} {kind} {rest}", hex(&message));
        }
        let mut bytes = if self.rng.one_in(2) {
            self.option()
        } else {
            let kind = self.rng.of(&[0, 1, 2, 3, 3, 4, 4, 5, 6, 255]);
            let units = self.rng.of(&[0, 1, 1, 2, 3, 4, 5, 6, 7, 255]);
            let mut o: Vec<u8> = (0..8 * usize::from(units)).map(|_| self.rng.next() as u8).collect();
            o.resize(o.len().max(8), 0);
            o[0] = kind;
            o[1] = units;
            if kind == 3 && o.len() >= 32 && !self.wide {
                let (a, b) = (self.seconds() as u32, self.seconds() as u32);
                o[4..8].copy_from_slice(&a.to_be_bytes());
                o[8..12].copy_from_slice(&b.to_be_bytes());
            }
            o
        };
        self.clear_prefixes(&mut bytes, 0);
        match self.rng.below(6) {
            0 => {
                bytes.pop();
            }
            1 => bytes.push(self.rng.next() as u8),
            2 => bytes.truncate(self.rng.below(9) as usize),
            _ => {}
        }
        format!("option {}", hex(&bytes))
    }

    /// Inside the range no prefix option that a single call reads has bits past its length.
    fn clear_prefixes(&self, message: &mut [u8], from: usize) {
        if self.reach != Reach::Inside {
            return;
        }
        let mut at = from;
        while let Some((kind, option)) = message.get(at..).and_then(model::option_at) {
            let end = at + option.len();
            if kind == 3 {
                let prefix = model::prefix_of(option);
                message[at + 16..at + 32].copy_from_slice(&prefix.to_be_bytes());
            }
            at = end;
        }
    }

    fn cache_call(&mut self, iface: u64) -> String {
        match self.rng.below(24) {
            0..=1 => format!("lookup {iface} {:032x}", self.neighbour()),
            2..=6 => format!("start {iface} {:032x}", self.neighbour()),
            7..=9 => {
                let (addr, mac) = (self.neighbour(), self.hardware());
                format!("fill {iface} {addr:032x} {mac:012x} {}", self.time(Kind::Fill))
            }
            10..=12 => {
                let (addr, mac) = (self.neighbour(), self.hardware());
                let expires = match self.rng.below(4) {
                    0 => self.time(Kind::Fill),
                    _ => (self.now + self.rng.below(5_000)).min(LATEST),
                };
                format!("insert {iface} {addr:032x} {mac:012x} {expires}")
            }
            13 => format!("get {iface} {:032x}", self.neighbour()),
            14 => format!("remove {iface} {:032x}", self.neighbour()),
            15 if self.rng.one_in(3) => format!("clear {iface}"),
            16 => self.rng.of(&["cache", "neighbors"]).into(),
            _ => {
                let now = self.time(Kind::Sweep);
                format!("sweep {iface} {now} {}", self.deadline())
            }
        }
    }

    fn queue_call(&mut self, iface: u64) -> String {
        match self.rng.below(20) {
            0..=7 => {
                let handle = self.handle();
                format!("push {iface} {:032x} {handle}", self.neighbour())
            }
            8..=9 => format!("release {iface} {:032x}", self.neighbour()),
            10 => "orphans".into(),
            11 => format!("purge {iface}"),
            12 => "queue".into(),
            _ => self.cache_call(iface),
        }
    }

    fn slaac_call(&mut self, iface: u64) -> String {
        match self.rng.below(40) {
            0..=1 => format!("link {iface} {}", self.rng.of(&["up", "up", "down"])),
            2 => format!("restart {iface}"),
            3 => format!("on {iface}"),
            4 => format!("off {iface}"),
            5..=7 => {
                let own = LINK_LOCAL | u128::from(model::eui64(self.file.mac));
                let prefix = self.rng.of(&self.prefixes);
                let formed = prefix >> 64 << 64 | u128::from(model::eui64(self.file.mac));
                let other = 0x2001_0db8 << 96 | u128::from(self.rng.below(20));
                let addr = self.rng.of(&[own, own, formed, other, other, 0xff02 << 112 | 1]);
                let len = self.rng.of(&[64, 64, 64, 128, 129, 0, 48]);
                format!("address {iface} {addr:032x} {len}")
            }
            8..=9 => {
                let via = self.rng.of(&self.routers) | u128::from(self.rng.below(3));
                let via = if self.wide && self.rng.one_in(8) { self.any_address() } else { via };
                let site: Addr = 0x2001_0db8 << 96;
                let prefix = self.rng.of(&[0, site, site, site | 1 << 64]);
                let len = self.rng.of(&[0, 32, 32, 64, 128, 129, u64::MAX]);
                match self.rng.below(3) {
                    0 => format!("routeto {iface} {prefix:032x} {len} {via:032x}"),
                    _ => format!("route {iface} {via:032x}"),
                }
            }
            10..=19 => {
                let now = self.time(Kind::Ra);
                let source = self.router();
                let message = self.advertisement();
                format!("ra {iface} {source:032x} {now} {}", crate::text::hex(&message))
            }
            20..=33 => {
                let now = self.time(Kind::Poll);
                let room = self.rng.of(&[0, 15, 16, 16, 16, 17, 1500]);
                format!("poll {iface} {now} {} {room}", self.deadline())
            }
            34 => format!("slaac {iface}"),
            35 => format!("prefixes {iface}"),
            36 => format!("routers {iface}"),
            37 => format!("addresses {iface}"),
            38 => match self.rng.below(3) {
                0 => format!("source {iface}"),
                _ => self.rng.of(&["routes", "destinations"]).into(),
            },
            _ => self.cache_call(iface),
        }
    }
}

//! The recorded call files: cases made by hand, each for one thing, and the answers that must be among them.
//!
//! Ten faults that no event file shows, and the case that shows each:
//!
//! | fault | case |
//! |---|---|
//! | the advertisement's flags exchanged | `advert: flags` |
//! | lookup Found for Stale | `answers: lookup` |
//! | routers-seen never set | `advert: routers seen` |
//! | a Reachable neighbour's packets purged | `answers: orphans` |
//! | release of the newest | `answers: release` |
//! | off without its purge | `advert: off with an address` |
//! | number 14 for 8 | `full: application's addresses`, `full: application's routes` |
//! | interface 4 accepted | `interface: ..`, each call in one of them |
//! | an insert's time unchecked | `latest: insert` |
//! | a deadline not joined | `deadline: sweep, ..` and `deadline: poll, ..`, one for each kind of entry |

/// Lines of text.
macro_rules! lines {
    ($($line:expr),* $(,)?) => { vec![$($line.to_string()),*] };
}

mod adverts;
mod answers;
mod bad;
mod deadlines;
mod looked;
mod masked;
mod off;
mod options;
mod orders;
mod tables;
mod turns;
mod values;

/// What a call file is made of.
pub struct Scene {
    pub name: String,
    pub text: Vec<u8>,
    /// Whether it leaves the range in which the Rust is exact, so that answers are the model's alone.
    pub outside: bool,
}

/// Each call with each of its answers: the line's first word, and a pattern in which `*` is any text. One that no case reaches stops
/// the recording.
pub const ANSWERS: &[(&str, &[&str])] = &[
    ("new", &["ok", "bad line"]),
    (
        "option",
        &[
            "malformed -",
            "1 * data 2 8 *",
            "1 * data 2 16 *",
            "2 * data 2 8 *",
            "3 * 0 * data 2 32 *",
            "3 * 64 * data 2 32 *",
            "3 * 128 * data 2 32 *",
            "3 * 192 * data 2 32 *",
            "4 data 2 48 *",
            "5 * data 2 8 *",
            "14 data 2 8 *",
            "255 data 2 2040 *",
            "bad line",
        ],
    ),
    ("write", &["*0101*", "*0201*", "*0304*", "*0501*", "refused 4", "bad line"]),
    ("solicit", &["8500*", "noroom -", "noroom *", "bad line"]),
    ("lookup", &["found *", "pending", "notfound", "refused 7", "refused 2", "bad line"]),
    ("start", &["ok", "refused 7", "refused 2", "bad line"]),
    ("fill", &["ok", "refused 3", "refused 7", "refused 2", "bad line"]),
    ("insert", &["ok", "refused 3", "refused 7", "refused 2", "bad line"]),
    ("get", &["nothing", "incomplete - -", "reachable * *", "stale * -", "refused 7", "bad line"]),
    ("remove", &["nothing", "incomplete - -", "reachable * *", "stale * -", "refused 7", "bad line"]),
    ("clear", &["ok", "refused 7", "bad line"]),
    (
        "sweep",
        &[
            "deadline - looked 0 events 0",
            "deadline - looked 1 events 0",
            "deadline 1* looked 1 events 0",
            "deadline * looked 16 events 0",
            "deadline * looked 1 events 1; retransmit *",
            "deadline * looked 1 events 1; failed *",
            "deadline * looked 16 events 1; failed *",
            "deadline * looked * events 2; failed *; retransmit *",
            "deadline * looked * events 2; retransmit *; failed *",
            "deadline * looked 16 events 16; retransmit *",
            "deadline - looked 16 events 16; failed *",
            "refused 3 looked 0",
            "refused 7 looked 0",
            "bad line",
        ],
    ),
    (
        "cache",
        &[
            "0",
            "*started*",
            "*incomplete 1 *",
            "*incomplete 2 *",
            "*incomplete 3 *",
            "*reachable *",
            "*stale *",
            "15;*",
            "16;*",
            "bad line",
        ],
    ),
    ("push", &["dropped 0", "dropped 1 *", "refused 7", "bad line"]),
    ("release", &["handle *", "nothing", "refused 7", "bad line"]),
    ("orphans", &["dropped 0", "dropped 1 *", "dropped 8 *", "bad line"]),
    ("purge", &["dropped 0", "dropped 1 *", "dropped 8 *", "refused 7", "bad line"]),
    ("queue", &["0", "1; *", "7; *", "8; *", "bad line"]),
    ("address", &["ok", "refused 7", "refused 14", "refused 9", "refused 8", "bad line"]),
    ("route", &["ok", "refused 7", "refused 9", "refused 8", "bad line"]),
    ("link", &["ok", "refused 7", "bad line"]),
    ("restart", &["ok", "refused 7", "bad line"]),
    ("on", &["ok", "refused 7", "bad line"]),
    ("off", &["dropped 0", "dropped 1 *", "dropped 3 *", "dropped 8 *", "refused 7", "bad line"]),
    ("ra", &["ok", "off", "refused 3", "refused 7", "refused 5", "refused 6", "refused 1", "bad line"]),
    (
        "poll",
        &[
            "deadline - off",
            "deadline 1* off",
            "deadline - nothing",
            "deadline 1* nothing",
            "deadline - noroom",
            "deadline 4* noroom",
            "deadline - solicit 8500*",
            "deadline 4* solicit 8500*",
            "refused 3",
            "refused 7",
            "bad line",
        ],
    ),
    (
        "slaac",
        &[
            "off",
            "start left 3 sync 0 seen 0 managed 0 other 0",
            "start left 3 sync 1 seen 1 managed 0 other 0",
            "discovering * left 2 sync 0 seen 0 managed 0 other 0",
            "discovering * left 1 *",
            "discovering * left 0 *",
            "maintaining left * sync 0 seen 1 *",
            "* managed 1 other 0",
            "* managed 0 other 1",
            "* managed 1 other 1",
            "refused 7",
            "bad line",
        ],
    ),
    ("prefixes", &["0", "1; *", "4; *", "* forever forever", "refused 7", "bad line"]),
    ("routers", &["0", "1; *", "2; *", "refused 7", "bad line"]),
    ("addresses", &["0", "* static -*", "* slaac never*", "* slaac forever*", "7; *", "8; *", "refused 7", "bad line"]),
    ("routes", &["0", "* slaac *", "* static -*", "7; *", "8; *", "bad line"]),
    ("clock", &["ok", "bad line"]),
    ("now", &["0", "77", "bad line"]),
    ("expired", &["yes deadline -", "yes deadline 7", "no deadline 7", "bad line"]),
    ("schedule", &["deadline 11", "deadline 4", "bad line"]),
    ("add", &["0", "18446744073709551614", "18446744073709551615", "bad line"]),
    (
        "kind",
        &[
            "unicast 0 multicast 0 linklocal 0 unspecified 1 allrouters 0",
            "unicast 1 multicast 0 linklocal 0 unspecified 0 allrouters 0",
            "unicast 1 multicast 0 linklocal 1 unspecified 0 allrouters 0",
            "unicast 0 multicast 1 linklocal 0 unspecified 0 allrouters 0",
            "unicast 0 multicast 1 linklocal 0 unspecified 0 allrouters 1",
            "bad line",
        ],
    ),
    ("hardware", &["unicast 0 eui *fffe*", "unicast 1 eui 000000fffe000001", "bad line"]),
    ("form", &["formed *fffe*", "nothing", "bad line"]),
    ("formed", &["yes", "no", "bad line"]),
    (
        "mask",
        &[
            "masked 00000000000000000000000000000000",
            "masked ffffffffffffffff0000000000000000",
            "masked fffffffffffffffffffffffffffffffe",
            "masked ffffffffffffffffffffffffffffffff",
            "bad line",
        ],
    ),
    ("same", &["yes", "no", "bad line"]),
    (
        "advert",
        &[
            "lifetime 0 managed 0 other 0",
            "lifetime * managed 0 other 1",
            "lifetime * managed 1 other 0",
            "lifetime 65535 *",
            "lifetime * managed 1 other 1",
            "refused 5",
            "bad line",
        ],
    ),
    ("options", &["clean", "malformed 16", "malformed 24", "malformed 0", "bad line"]),
    (
        "next",
        &[
            "end",
            "malformed",
            "1 * next 8",
            "2 * next *",
            "3 * next 32",
            "4 next 48",
            "5 1400 next *",
            "14 next *",
            "255 next 8",
            "bad line",
        ],
    ),
    ("checksum", &["0", "65534", "31921", "bad line"]),
    ("solicitation", &["yes", "no", "bad line"]),
    ("source", &["from *", "nothing", "refused 7", "bad line"]),
    ("routeto", &["ok", "refused 7", "refused 14", "refused 9", "refused 8", "bad line"]),
    ("destinations", &["0", "* 0 fe80*", "* 64 *", "* 128 *", "8; *", "bad line"]),
    ("neighbors", &["0", "*incomplete - -*", "*reachable * *", "*stale * -*", "16; *", "bad line"]),
    (
        "turn",
        &[
            "nothing ready 0 dropped 0 poll nothing events 0 | wake - buffer *",
            "heard ok ready 0 *",
            "heard off ready 0 *",
            "heard refused 5 ready 0 *",
            "heard refused 6 ready 0 *",
            "heard refused 1 ready 0 *",
            "heard ok from * ready 0 *",
            "heard ok from * ready 2 1 2 *",
            "heard off from * ready 1 *",
            "heard refused 5 from *",
            "heard refused 6 from *",
            "heard refused 1 from *",
            "refused 3 ready 0 dropped 0 poll refused 3 events 0 | wake - *",
            "refused 2 ready 0 *",
            "send * ready 0 *",
            "send * ready 1 *",
            "send * ready 3 11 12 13 *",
            "wait dropped 0 *",
            "wait dropped 1 *",
            "solicit dropped 0 *",
            "solicit dropped 1 *",
            "* dropped 2 * poll *",
            "* poll off *",
            "* poll noroom * buffer -",
            "* poll noroom * buffer a5*",
            "* poll solicit * wake 4* buffer 8500*",
            "* events 1; retransmit *",
            "* events 1; failed *",
            "bad line",
        ],
    ),
    (
        "run",
        &[
            "0 | wake - buffer *",
            "0 | wake 77 buffer *",
            "1 | *",
            "2 | * | *",
            "3 | *",
            "4 | * | * | * | * | wake * buffer *",
            "* refused 3 *",
            "bad line",
        ],
    ),
];

/// Whether a text is the pattern's, in which `*` is any text.
pub fn fits(pattern: &str, text: &str) -> bool {
    match pattern.split_once('*') {
        None => pattern == text,
        Some((front, rest)) => match text.strip_prefix(front) {
            None => false,
            Some(left) => (0..=left.len()).any(|i| left.is_char_boundary(i) && fits(rest, &left[i..])),
        },
    }
}

// ---- the parts of a line

/// The largest time that a call takes.
const LATEST: u64 = 1 << 62;

/// Room in the tables.
const CACHE: u64 = 16;
const QUEUE: u64 = 8;
const ADDRESSES: u64 = 8;
const ROUTES: u64 = 8;
const PREFIXES: u64 = 4;

/// The link-local address of the interfaces' hardware address.
const OWN: &str = "fe80000000000000000000fffe000001";
const UNSPECIFIED: &str = "00000000000000000000000000000000";
const ALL_NODES: &str = "ff020000000000000000000000000001";
const GROUP_MAC: &str = "010000000001";

/// An infinite lifetime.
const ALL_ONES: u32 = 0xffff_ffff;

/// Flags of a prefix option.
const ON_LINK: u8 = 0x80;
const AUTONOMOUS: u8 = 0x40;
const BOTH: u8 = ON_LINK | AUTONOMOUS;

/// A neighbour.
fn host(n: u64) -> String {
    format!("20010db800000001{n:016x}")
}

/// A router.
fn router(n: u64) -> String {
    format!("fe80000000000000{n:016x}")
}

fn mac(n: u64) -> String {
    format!("0200000000{n:02x}")
}

/// An address that SLAAC forms of a prefix.
fn formed(n: u64) -> String {
    format!("20010db8{n:08x}000000fffe000001")
}

/// A prefix option: the digits behind 2001:db8.
fn prefix_of(n: u64, len: u8, flags: u8, valid: u32, preferred: u32) -> String {
    format!("0304{len:02x}{flags:02x}{valid:08x}{preferred:08x}0000000020010db8{n:08x}0000000000000000")
}

fn prefix(n: u64, valid: u32, preferred: u32) -> String {
    prefix_of(n, 64, BOTH, valid, preferred)
}

/// A source's link-layer address.
fn lladdr(mac: &str) -> String {
    format!("0101{mac}")
}

/// An option's type and length, and as many bytes in all, the others numbered.
fn option_of(kind: u8, units: u8, bytes: usize) -> String {
    let all = (0..bytes).map(|i| match i {
        0 => kind,
        1 => units,
        _ => i as u8,
    });
    if bytes == 0 { "-".into() } else { all.map(|b| format!("{b:02x}")).collect() }
}

/// Bytes that no option is made of.
fn filler(bytes: usize) -> String {
    if bytes == 0 { "-".into() } else { "5a".repeat(bytes) }
}

/// An advertisement's bytes.
fn advert(flags: u8, lifetime: u16, options: &[String]) -> String {
    format!("8600000000{flags:02x}{lifetime:04x}0000000000000000{}", options.concat())
}

fn ra(iface: u64, source: u64, now: u64, lifetime: u16, options: &[String]) -> String {
    format!("ra {iface} {} {now} {}", router(source), advert(0, lifetime, options))
}

/// Lines, and lists of lines, one behind the other.
fn joined(parts: &[Vec<String>]) -> Vec<String> {
    parts.concat()
}

fn new() -> String {
    "new 020000000001 0".into()
}

// ---- cases

/// The words whose second field is an interface.
const OF_INTERFACE: &[&str] = &[
    "lookup",
    "start",
    "fill",
    "insert",
    "get",
    "remove",
    "clear",
    "sweep",
    "push",
    "release",
    "purge",
    "address",
    "route",
    "link",
    "restart",
    "on",
    "off",
    "ra",
    "poll",
    "slaac",
    "prefixes",
    "routers",
    "addresses",
    "source",
    "routeto",
];

/// The interfaces that the lines use.
fn touched(lines: &[String]) -> Vec<u64> {
    let named = |line: &String, iface: u64| {
        let mut fields = line.split(' ');
        let word = fields.next().unwrap_or("");
        let of_card = iface == 0 && ["turn", "run"].contains(&word);
        of_card || OF_INTERFACE.contains(&word) && fields.next() == Some(&iface.to_string())
    };
    (0..4).filter(|i| lines.iter().any(|l| named(l, *i))).collect()
}

/// Lines that show all that is held, of these interfaces.
fn state(ifaces: &[u64]) -> Vec<String> {
    let mut lines = crate::orders::LISTING.map(String::from).to_vec();
    for iface in ifaces {
        for list in ["slaac", "prefixes", "routers", "addresses"] {
            lines.push(format!("{list} {iface}"));
        }
    }
    lines
}

/// A case: a new world in front, what it holds behind.
fn scene(name: impl Into<String>, lines: Vec<String>) -> Scene {
    let mut all = if lines[0].starts_with("new ") { Vec::new() } else { vec![new()] };
    let shown = state(&touched(&lines));
    all.extend(lines);
    all.extend(shown);
    Scene { name: name.into(), text: (all.join("\n") + "\n").into_bytes(), outside: false }
}

/// The same, outside the Rust's range.
fn modelled(name: impl Into<String>, lines: Vec<String>) -> Scene {
    Scene { outside: true, ..scene(name, lines) }
}

/// Several cases as one, one behind the other: each begins with a new world.
fn together(name: impl Into<String>, scenes: Vec<Scene>) -> Scene {
    Scene { name: name.into(), outside: scenes.iter().any(|s| s.outside), text: scenes.into_iter().flat_map(|s| s.text).collect() }
}

/// All cases made by hand.
pub fn all() -> Vec<Scene> {
    let groups = [
        answers::answers(),
        answers::refusals(),
        answers::latest(),
        answers::interfaces_known(),
        values::clocks(),
        values::values(),
        options::options(),
        tables::full_cache(),
        tables::full_queue(),
        tables::full_slaac(),
        tables::one_of_four(),
        deadlines::sweep_deadlines(),
        deadlines::poll_deadlines(),
        adverts::adverts(),
        turns::turns(),
        bad::bad_lines(),
        // Behind all others, which keep their numbers.
        looked::looked(),
        masked::masked(),
        off::off(),
        orders::orders(),
    ];
    groups.into_iter().flatten().collect()
}

//! Bits past a prefix length: the call `mask`, and what is read of prefix options.

use super::*;

const ALL_SET: &str = "ffffffffffffffffffffffffffffffff";
const MIXED: &str = "a5c3965a3ce1780fd2b44b2d871ef069";

/// Borders of an address, its halves and its bytes, and of what is link-local or multicast.
const LENGTHS: [u8; 14] = [0, 1, 7, 8, 9, 10, 63, 64, 65, 100, 127, 128, 129, 255];

/// The prefix's digits, whole.
fn whole(addr: &str, len: u8, flags: u8, valid: u32, preferred: u32) -> String {
    format!("0304{len:02x}{flags:02x}{valid:08x}{preferred:08x}00000000{addr}")
}

/// 2001:db8:0:1 with these low digits.
fn low(bits: u64, len: u8, valid: u32, preferred: u32) -> String {
    whole(&host(bits), len, BOTH, valid, preferred)
}

fn said(now: u64, options: &[String]) -> String {
    ra(0, 1, now, 0, options)
}

/// An advertisement, the entries that it leaves, and those after a poll.
fn shown(now: u64, options: &[String]) -> Vec<String> {
    lines![said(now, options), "prefixes 0", format!("poll 0 {now} - 16"), "prefixes 0", "addresses 0"]
}

fn calls() -> Vec<Scene> {
    let mask = |addr: &str, len: u8| format!("mask {addr} {len}");
    vec![
        scene("mask: all ones, at each length", (0..=128).map(|len| mask(ALL_SET, len)).collect()),
        scene(
            "mask: mixed bits, and few",
            joined(&[
                LENGTHS[..12].iter().map(|len| mask(MIXED, *len)).collect(),
                [UNSPECIFIED, OWN, ALL_NODES, &host(1)].iter().flat_map(|addr| [0, 10, 63, 64, 127, 128].map(|len| mask(addr, len))).collect(),
            ]),
        ),
        modelled(
            "mask: above 128",
            [129, 130, 136, 192, 254, 255].iter().flat_map(|len| [mask(ALL_SET, *len), mask(MIXED, *len)]).collect(),
        ),
        scene(
            "mask: lines that do not read",
            lines![
                "mask",
                format!("mask {MIXED}"),
                format!("mask {MIXED} "),
                format!("mask {MIXED} 64 "),
                format!("mask {MIXED} 64 0"),
                format!("mask  {MIXED} 64"),
                format!("mask {MIXED} 256"),
                format!("mask {MIXED} 320"),
                format!("mask {MIXED} 18446744073709551615"),
                format!("mask {MIXED} 18446744073709551680"),
                format!("mask {MIXED} -1"),
                format!("mask {MIXED} 0x40"),
                format!("mask {}0 64", &MIXED[2..]),
                format!("mask {MIXED}0 64"),
                format!("mask g{} 64", &MIXED[1..]),
                format!("mask 64 {MIXED}"),
                format!("mask 0 {MIXED} 64"),
                format!("masks {MIXED} 64"),
                format!("MASK {MIXED} 64"),
                // These read.
                format!("mask {} 64", MIXED.to_uppercase()),
                format!("mask {MIXED} 00000000000000000000000000000064"),
            ],
        ),
    ]
}

fn options() -> Vec<Scene> {
    // In front of the option: an MTU, and behind it a hardware address.
    let between = |option: &str| format!("next 0501000000000500{option}0101020000000001 8");
    let all = |addr: &str, flags: u8| LENGTHS.map(|len| whole(addr, len, flags, 9, 5)).to_vec();
    let mut written = Vec::new();
    for len in [0, 10, 63, 64, 65, 100, 128, 129] {
        written.push(format!("write {} 0 3 {len} 192 9 5 {MIXED}", filler(32)));
        written.push(format!("option {}", whole(MIXED, len, BOTH, 9, 5)));
    }
    vec![
        modelled(
            "mask: options read, at each length",
            joined(&[all(ALL_SET, BOTH), all(MIXED, 0), all(MIXED, ON_LINK)]).iter().map(|o| format!("option {o}")).collect(),
        ),
        modelled("mask: options read at a place, at each length", joined(&[all(ALL_SET, BOTH), all(MIXED, 0)]).iter().map(|o| between(o)).collect()),
        // The Rust reads these likewise.
        scene(
            "mask: options read that have no bits past their length",
            joined(&[
                (0..=128).map(|len| format!("option {}", whole(&leading(len), len, BOTH, 9, 5))).collect(),
                [0, 9, 64, 100].map(|len| between(&whole(&leading(len), len, BOTH, 9, 5))).to_vec(),
                [129, 255].map(|len| format!("option {}", whole(MIXED, len, BOTH, 9, 5))).to_vec(),
                [129, 255].map(|len| between(&whole(MIXED, len, BOTH, 9, 5))).to_vec(),
            ]),
        ),
        modelled("mask: written as given, then read", written),
    ]
}

/// So many ones in front.
fn leading(len: u8) -> String {
    let ones = (0..len).fold(0u128, |ones, _| ones >> 1 | 1 << 127);
    format!("{ones:032x}")
}

fn entries() -> Vec<Scene> {
    let all = u64::MAX;
    let mut lengths = Vec::new();
    for len in [63, 65, 100, 127] {
        // An entry, refreshed and withdrawn, each with other bits past its length.
        lengths.push(new());
        lengths.extend(shown(0, &[low(all, len, 9, 5)]));
        lengths.extend(shown(1, &[low(all - 1, len, 8, 4)]));
        lengths.extend(shown(2, &[low(all, len, 0, 0)]));
    }
    let mut under_ten = Vec::new();
    for (addr, len) in [
        ("fe800000000000000000000000000000", 8),
        ("fe800000000000000000000000000000", 9),
        ("fe800000000000000000000000000000", 10),
        ("febfffffffffffffffffffffffffffff", 10),
        ("fec00000000000000000000000000000", 9),
        ("fec00000000000000000000000000000", 10),
        ("ff020000000000000000000000000000", 7),
        ("ff020000000000000000000000000000", 8),
        ("fe7f0000000000000000000000000000", 8),
        (ALL_SET, 1),
        (ALL_SET, 0),
        (MIXED, 0),
    ] {
        under_ten.push(new());
        under_ten.extend(shown(0, &[whole(addr, len, BOTH, 9, 5)]));
    }
    // The Rust has the same of these.
    let mut without = Vec::new();
    for (addr, len) in [
        (UNSPECIFIED, 0),
        ("fe000000000000000000000000000000", 8),
        ("20010db8000000020000000000000000", 63),
        ("20010db8000000018000000000000000", 65),
        ("20010db800000001fffffffffffffffe", 127),
        (ALL_NODES, 128),
        (MIXED, 128),
    ] {
        without.push(new());
        without.extend(shown(0, &[whole(addr, len, BOTH, 9, 5)]));
    }
    without.push(new());
    without.extend(shown(0, &[low(all, 128, 9, 5), low(all - 1, 128, 8, 4), low(all << 63, 65, 7, 3), low(0, 65, 6, 2)]));
    without.extend(shown(1, &[low(all - 1, 128, 0, 0), low(0, 65, 0, 0)]));
    vec![
        // The second is a refresh, the last takes the entry and its address away.
        modelled(
            "mask: one entry with bits past its length and without",
            joined(&[
                shown(0, &[low(0, 64, 9, 5)]),
                shown(1, &[low(1, 64, 8, 4)]),
                shown(2, &[low(all, 64, 0, 0)]),
                lines![new()],
                shown(0, &[low(all, 64, 9, 5)]),
                shown(1, &[low(0, 64, 8, 4)]),
                shown(2, &[low(1 << 63, 64, 7, 3)]),
                shown(3, &[low(0, 64, 0, 0)]),
            ]),
        ),
        modelled("mask: entries of 63, 65, 100 and 127 bits", lengths),
        // Others by their length, and by a bit within it.
        modelled(
            "mask: entries that cleared bits do not make one",
            joined(&[
                shown(0, &[low(all, 64, 9, 5), low(all, 65, 9, 5), low(1, 65, 9, 5), low(all, 128, 9, 5)]),
                shown(1, &[low(all, 66, 9, 5), low(all - 1, 128, 0, 0), low(0, 64, 0, 0)]),
            ]),
        ),
        modelled("mask: lengths under ten, and 0", under_ten),
        scene("mask: entries that have no bits past their length", without),
        scene(
            "mask: above 128 an advertisement's prefix is skipped",
            joined(&[
                shown(0, &[low(0, 64, 9, 5), low(0, 128, 9, 5)]),
                shown(1, &[low(all, 129, 9, 5), whole(ALL_SET, 255, BOTH, 9, 5), low(0, 129, 0, 0)]),
            ]),
        ),
        modelled(
            "mask: a full table, and a match by cleared bits",
            joined(&[
                shown(0, &[prefix(1, 9, 5), prefix(2, 9, 5), prefix(3, 9, 5), prefix(4, 9, 5)]),
                // Known, not known, known and withdrawn.
                shown(1, &[whole("20010db800000003ffffffffffffffff", 64, BOTH, 8, 4)]),
                shown(2, &[whole("20010db800000005ffffffffffffffff", 64, BOTH, 8, 4)]),
                shown(3, &[whole("20010db8000000020000000000000001", 64, BOTH, 0, 0)]),
            ]),
        ),
        modelled(
            "mask: infinite lifetimes",
            joined(&[
                shown(0, &[low(5, 64, ALL_ONES, ALL_ONES)]),
                shown(1, &[low(6, 64, ALL_ONES, 2)]),
                shown(2, &[low(7, 64, 9, 9)]),
                shown(3, &[low(8, 64, ALL_ONES, ALL_ONES)]),
                // Preferred above valid: nothing is withdrawn.
                shown(4, &[low(9, 64, 0, ALL_ONES)]),
                shown(5, &[low(10, 64, 0, 0)]),
            ]),
        ),
        modelled(
            "mask: in one message",
            joined(&[
                shown(0, &[low(1, 64, 9, 5), low(2, 64, 8, 4)]),
                shown(1, &[low(3, 64, 7, 3), low(4, 64, 0, 0)]),
                shown(2, &[low(5, 64, 0, 0), low(6, 64, 6, 2)]),
            ]),
        ),
        // The Rust takes nothing of these.
        scene(
            "mask: bits past the length of what is not taken",
            joined(&[
                shown(0, &[low(0, 64, 9, 5)]),
                shown(1, &[whole(&host(1), 64, ON_LINK, 0, 0), whole(ALL_SET, 0, 0, 9, 5)]),
                lines![said(2, &[low(1, 64, 0, 0), "01".into()]), "prefixes 0", "off 0", said(3, &[low(1, 64, 9, 5)])],
            ]),
        ),
        modelled(
            "mask: in turns of the main loop",
            lines![
                format!("address 0 {OWN} 64"),
                format!("turn 16 0 advert {} {}", router(1), advert(0, 9, &[low(1, 64, 9, 5)])),
                "prefixes 0",
                "addresses 0",
                format!("run 16 4 - 1 advert {} {} 1 timer", router(2), advert(0, 9, &[low(2, 64, 0, 0)])),
            ],
        ),
    ]
}

/// The call, what single calls read, and what advertisements leave.
pub fn masked() -> Vec<Scene> {
    [calls(), options(), entries()].into_iter().flatten().collect()
}

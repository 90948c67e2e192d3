//! `record FOLDER`: recorded cases `N.in` and `N.out`, answers by the real code, or by the model where it leaves its range. See README.md.

use std::collections::HashSet;
use std::fs;
use std::path::PathBuf;
use std::process::exit;

use oracle::generate::{self, Reach};
use oracle::{events, shrink};

const USAGE: &str = "record FOLDER [-s SEED] [-n CANDIDATES]

Writes N.in and N.out into FOLDER (which must be new or empty) and prints what each is for.";

/// The examples of document 01, and some that its rules name.
const WRITTEN: &[(&str, &str)] = &[
    (
        "document 01's example",
        "mac 020000000001\naddresses 1\nfe80000000000000000000fffe000001 64\nevents 4\n0 up\n0 poll\n500 ra fe800000000000000000000000000001 86000000400007080000000000000000030440c000000e10000007080000000020010db8000000010000000000000000\n500 poll\n",
    ),
    (
        "P11: start, and sweeps at 0, 999, 1000, 1999, 2000, 3000",
        "mac 020000000001\naddresses 0\nevents 7\n0 start 20010db8000000000000000000000001\n0 sweep\n999 sweep\n1000 sweep\n1999 sweep\n2000 sweep\n3000 sweep\n",
    ),
    (
        "a prefix without low bytes and with them is one entry, and with valid 0 it goes, its address too",
        "mac 020000000001\naddresses 0\nevents 4\n0 ra fe800000000000000000000000000001 86000000000007080000000000000000030440c000000e10000007080000000020010db8000000010000000000000000030440c000000e10000007080000000020010db8000000010000000000000001\n0 poll\n1 ra fe800000000000000000000000000001 86000000000007080000000000000000030440c000000000000000000000000020010db8000000010000000000000001\n1 poll\n",
    ),
    (
        "P1 no options",
        "mac 020000000001\naddresses 0\nevents 2\n0 ra fe800000000000000000000000000001 86000000000007080000000000000000\n0 poll\n",
    ),
    (
        "P2 an option of 7 bytes",
        "mac 020000000001\naddresses 0\nevents 2\n0 ra fe800000000000000000000000000001 8600000000000708000000000000000001010200000000\n0 poll\n",
    ),
    (
        "P3 an option of length 0",
        "mac 020000000001\naddresses 0\nevents 2\n0 ra fe800000000000000000000000000001 860000000000070800000000000000000100020000000001\n0 poll\n",
    ),
    (
        "P4 type 3, L = 3, then L = 4",
        "mac 020000000001\naddresses 0\nevents 3\n0 ra fe800000000000000000000000000001 86000000000007080000000000000000030340c000000e10000007080000000020010db800000001\n1 ra fe800000000000000000000000000001 86000000000007080000000000000000030440c000000e10000007080000000020010db8000000010000000000000000\n1 poll\n",
    ),
    (
        "P5 type 4, L = 5, then L = 6",
        "mac 020000000001\naddresses 0\nevents 3\n0 ra fe800000000000000000000000000001 8600000000000708000000000000000004050000000000000000000000000000000000000000000000000000000000000000000000000000\n1 ra fe800000000000000000000000000001 86000000000007080000000000000000040600000000000000000000000000000000000000000000000000000000000000000000000000000000000000000000\n1 poll\n",
    ),
    (
        "P6 preferred 5 with valid 5, then 6 with 5",
        "mac 020000000001\naddresses 0\nevents 2\n0 ra fe800000000000000000000000000001 86000000000007080000000000000000030440c000000005000000050000000020010db8000000010000000000000000030440c000000005000000060000000020010db8000000020000000000000000\n0 poll\n",
    ),
    (
        "P7 prefix length 128, then 129",
        "mac 020000000001\naddresses 0\nevents 2\n0 ra fe800000000000000000000000000001 86000000000007080000000000000000030480c000000005000000050000000020010db8000000010000000000000000030481c000000005000000050000000020010db8000000020000000000000000\n0 poll\n",
    ),
    (
        "advertisement of one byte, and one digit pair only",
        "mac 020000000001\naddresses 0\nevents 2\n0 ra fe800000000000000000000000000001 86\n0 poll\n",
    ),
];

/// Cases in which a rule shows that the smallest file for it may leave unseen.
fn more_written() -> Vec<(&'static str, String)> {
    // A prefix option: low digits of the upper half of 2001:db8::, length, valid, preferred.
    let prefix = |n: u32, len: u8, valid: u32, preferred: u32| {
        format!("0304{len:02x}c0{valid:08x}{preferred:08x}0000000020010db8{n:08x}0000000000000000")
    };
    let ra = |time: u64, source: u32, lifetime: u16, options: &[String]| {
        let options = options.concat();
        format!("{time} ra fe80000000000000000000000000{source:04x} 860000000000{lifetime:04x}0000000000000000{options}")
    };
    let file = |addresses: &[&str], events: &[String]| {
        let mut s = format!("mac 020000000001\naddresses {}\n", addresses.len());
        for a in addresses {
            s += &format!("{a}\n");
        }
        s += &format!("events {}\n", events.len());
        for e in events {
            s += &format!("{e}\n");
        }
        s
    };
    let e = |text: &str| text.to_string();
    let own = "fe80000000000000000000fffe000001 64";
    let formed = "20010db800000001000000fffe000001 64";
    let mut cases = Vec::new();
    cases.push((
        "a link-local prefix",
        file(&[], &[ra(0, 1, 9, &["030440c0000000050000000500000000fe800000000000000000000000000000".into()]), e("0 poll")]),
    ));
    cases.push((
        "a multicast prefix",
        file(&[], &[ra(0, 1, 9, &["030440c0000000050000000500000000ff020000000000000000000000000000".into()]), e("0 poll")]),
    ));
    cases.push((
        "prefixes of 63, 64 and 65 bits: one address",
        file(&[], &[ra(0, 1, 9, &[prefix(1, 63, 9, 5), prefix(2, 64, 9, 5), prefix(3, 65, 9, 5)]), e("0 poll")]),
    ));
    let four: Vec<String> = (1..=4).map(|n| prefix(n, 64, 9, 1)).collect();
    cases.push((
        "a fifth prefix asks for no sync: a preferred time that passed is listed as it was",
        file(&[], &[ra(0, 1, 0, &four), e("0 poll"), ra(2_000, 1, 0, &[prefix(5, 64, 9, 9)]), e("2000 poll")]),
    ));
    cases.push((
        "a third router asks for no sync",
        file(
            &[],
            &[
                ra(0, 1, 9, &[prefix(1, 64, 9, 1)]),
                ra(0, 2, 9, &[]),
                e("0 poll"),
                ra(2_000, 3, 9, &[]),
                e("2000 poll"),
            ],
        ),
    ));
    cases.push((
        "a poll with nothing to sync leaves a preferred time that passed; the sync at the next advertisement does not",
        file(&[], &[ra(0, 1, 0, &[prefix(1, 64, 9, 1)]), e("0 poll"), e("2000 poll")]),
    ));
    cases.push((
        "the same, then an advertisement of the router",
        file(
            &[],
            &[ra(0, 1, 0, &[prefix(1, 64, 9, 1)]), e("0 poll"), e("2000 poll"), ra(2_000, 1, 9, &[]), e("2001 poll")],
        ),
    ));
    cases.push((
        "valid 0 asks for a sync, seen by a poll of an earlier time",
        file(
            &[],
            &[ra(0, 1, 0, &[prefix(1, 64, 9, 5)]), e("0 poll"), ra(20, 1, 0, &[prefix(1, 64, 0, 0)]), e("10 poll")],
        ),
    ));
    cases.push((
        "lifetime 0 asks for a sync, seen by a poll of an earlier time",
        file(&[], &[ra(0, 1, 9, &[]), e("0 poll"), ra(20, 1, 0, &[]), e("10 poll")]),
    ));
    cases.push((
        "three solicitations and no fourth; up gives three more",
        file(
            &[own],
            &[
                e("0 up"),
                e("0 poll"),
                e("3999 poll"),
                e("4000 poll"),
                e("8000 poll"),
                e("12000 poll"),
                e("99000 poll"),
                e("99001 up"),
                e("99001 poll"),
                e("103000 poll"),
                e("103001 poll"),
                e("107001 poll"),
                e("111001 poll"),
            ],
        ),
    ));
    cases.push((
        "up in phase Maintaining solicits again",
        file(&[own], &[e("0 up"), e("0 poll"), ra(1, 1, 9, &[]), e("4000 poll"), e("5000 up"), e("5000 poll")]),
    ));
    cases.push((
        "an advertisement in phase Start: the solicitation is still sent",
        file(&[own], &[e("0 up"), ra(0, 1, 9, &[]), e("0 poll"), e("4000 poll")]),
    ));
    cases.push((
        "an application's address of that prefix stays, in life and at the end",
        file(&[formed], &[ra(0, 1, 0, &[prefix(1, 64, 1, 1)]), e("0 poll"), e("1000 poll")]),
    ));
    cases.push((
        "an application's address of another length is no match",
        file(
            &["20010db800000001000000fffe000001 128"],
            &[ra(0, 1, 0, &[prefix(1, 64, 2, 1)]), e("0 poll"), e("1000 poll")],
        ),
    ));
    cases.push((
        "the first of three addresses goes, and the others move down",
        file(
            &[own],
            &[
                ra(0, 1, 0, &[prefix(1, 64, 1, 1), prefix(2, 64, 9, 9), prefix(3, 64, 9, 9)]),
                e("0 poll"),
                e("999 poll"),
                e("1000 poll"),
            ],
        ),
    ));
    cases.push((
        "off clears neighbours with an address",
        file(
            &[],
            &[
                ra(0, 1, 9, &[prefix(1, 64, 9, 9)]),
                e("0 poll"),
                e("0 start 20010db8000000000000000000000007"),
                e("1 off"),
                e("2 poll"),
                ra(2, 1, 9, &[]),
            ],
        ),
    ));
    cases.push((
        "off keeps neighbours without one",
        file(&[], &[ra(0, 1, 9, &[]), e("0 poll"), e("0 start 20010db8000000000000000000000007"), e("1 off")]),
    ));
    // Checksums at the edge of 16 bits.
    let mut rng = generate::Rng::new(1, 1);
    for _ in 0..24 {
        let source = format!("{:032x} 64", generate::carrying(&mut rng, 0x0200_0000_0001));
        cases.push(("a checksum with carries", file(&[&source], &[e("0 up"), e("0 poll")])));
    }
    // A full cache of one kind or two, and one more.
    let addr = |n: u32| format!("20010db800000000000000000000{n:04x}");
    let mut kinds: Vec<(&str, Vec<String>)> = Vec::new();
    let fill = |t: u64, n: u32| format!("{t} fill {} 0200000000{n:02x}", addr(n));
    let start = |t: u64, n: u32| format!("{t} start {}", addr(n));
    kinds.push(("reachable: the earliest expiry", (0..16).map(|n| fill(if n == 5 { 0 } else { 10 }, n)).collect()));
    kinds.push(("reachable, ties: the lowest index", (0..16).map(|n| fill(if n % 5 == 3 { 0 } else { 10 }, n)).collect()));
    kinds.push(("started: the lowest index", (0..16).map(|n| start(0, n)).collect()));
    let mut incomplete: Vec<String> = (0..8).map(|n| start(0, n)).collect();
    incomplete.push("50 sweep".into());
    incomplete.extend((8..16).map(|n| start(0, n)));
    kinds.push(("incomplete before started", incomplete.clone()));
    incomplete.push("40 sweep".into());
    kinds.push(("incomplete: the earliest due", incomplete));
    let mut stale: Vec<String> = (0..12).map(|n| fill(if n % 4 == 2 { 0 } else { 10 }, n)).collect();
    stale.push("60005 sweep".into());
    stale.extend((12..16).map(|n| if n == 13 { start(60_005, n) } else { fill(60_005, n) }));
    kinds.push(("stale behind reachable: the lowest index of the stale", stale.clone()));
    stale.push("60006 sweep".into());
    kinds.push(("all kinds but started", stale));
    let mut mixed: Vec<String> = (0..15).map(|n| start(0, n)).collect();
    mixed.push(fill(9, 15));
    kinds.push(("the only reachable, in the last place", mixed));
    for (name, events) in kinds {
        for last in [format!("60006 start {}", addr(99)), format!("60006 fill {} 020000000099", addr(99))] {
            let mut events = events.clone();
            events.push(last);
            events.push(format!("60006 remove {}", addr(4)));
            events.push("60007 sweep".into());
            cases.push((Box::leak(format!("a full cache, {name}").into_boxed_str()), file(&[], &events)));
        }
    }
    // Failures in one sweep.
    for n in [1u32, 2, 3, 5] {
        let mut events: Vec<String> = (0..n).map(|i| start(0, i)).collect();
        events.push("0 sweep".into());
        events.push(start(0, 50));
        for t in [1_000, 2_000, 2_500, 3_000, 3_000, 4_000, 5_500, 6_500] {
            events.push(format!("{t} sweep"));
        }
        cases.push(("resolutions that fail in one sweep, and one a little later", file(&[], &events)));
    }
    cases
}

/// Infinite lifetimes, which the Rust does not have: a prefix option is made of the digits after 2001:db8, valid and preferred.
fn forever_cases() -> Vec<(&'static str, String)> {
    const ALL: u32 = 0xffff_ffff;
    let wide = |n: u32, low: u64, valid: u32, preferred: u32| {
        format!("030440c0{valid:08x}{preferred:08x}0000000020010db8{n:08x}{low:016x}")
    };
    let prefix = |n: u32, valid: u32, preferred: u32| wide(n, 0, valid, preferred);
    let ra = |time: u64, lifetime: u16, options: &[String]| {
        format!("{time} ra fe800000000000000000000000000001 860000000000{lifetime:04x}0000000000000000{}", options.concat())
    };
    let file = |events: &[String]| format!("mac 020000000001\naddresses 0\nevents {}\n{}\n", events.len(), events.join("\n"));
    let e = |text: &str| text.to_string();
    let five: Vec<String> = (1..=5).map(|n| prefix(n, ALL, ALL)).collect();
    vec![
        ("forever: both lifetimes", file(&[ra(0, 9, &[prefix(1, ALL, ALL)]), e("0 poll")])),
        ("forever: polled at the last time", file(&[ra(0, 9, &[prefix(1, ALL, ALL)]), e("0 poll"), e("4611686018427387904 poll")])),
        ("forever: polled at what would be its end", file(&[ra(0, 9, &[prefix(1, ALL, ALL)]), e("0 poll"), e("4294967295000 poll")])),
        ("forever: valid alone", file(&[ra(0, 0, &[prefix(1, ALL, 1)]), e("0 poll"), e("1000 poll")])),
        ("forever: valid alone, synced after the preferred time", file(&[ra(0, 1, &[prefix(1, ALL, 1)]), e("0 poll"), e("1000 poll")])),
        ("forever: valid alone, never preferred", file(&[ra(0, 0, &[prefix(1, ALL, 0)]), e("0 poll")])),
        ("forever: one second less is a moment", file(&[ra(0, 0, &[prefix(1, ALL - 1, ALL - 1)]), e("0 poll"), e("4294967293999 poll"), e("4294967294000 poll")])),
        ("forever: preferred, one second less valid: skipped", file(&[ra(0, 0, &[prefix(1, ALL - 1, ALL)]), e("0 poll")])),
        ("forever: preferred with a finite valid, skipped", file(&[ra(0, 0, &[prefix(1, 9, ALL)]), e("0 poll")])),
        ("forever: preferred with valid 0 expires nothing", file(&[ra(0, 0, &[prefix(1, ALL, ALL)]), e("0 poll"), ra(5, 0, &[prefix(1, 0, ALL)]), e("5 poll")])),
        ("forever: then finite", file(&[ra(0, 0, &[prefix(1, ALL, ALL)]), e("0 poll"), ra(5, 0, &[prefix(1, 2, 1)]), e("5 poll")])),
        ("forever: then finite, and gone", file(&[ra(0, 0, &[prefix(1, ALL, ALL)]), e("0 poll"), ra(5, 0, &[prefix(1, 2, 1)]), e("5 poll"), e("2004 poll"), e("2005 poll")])),
        ("forever: then 0, before the sync", file(&[ra(0, 0, &[prefix(1, ALL, ALL)]), e("0 poll"), ra(5, 0, &[prefix(1, 0, 0)])])),
        ("forever: then 0, and gone", file(&[ra(0, 0, &[prefix(1, ALL, ALL)]), e("0 poll"), ra(5, 0, &[prefix(1, 0, 0)]), e("5 poll")])),
        ("forever: from finite", file(&[ra(0, 0, &[prefix(1, 2, 1)]), e("0 poll"), ra(1_500, 0, &[prefix(1, ALL, ALL)]), e("1500 poll"), e("3000 poll")])),
        ("forever: from finite, expired and not left", file(&[ra(0, 0, &[prefix(1, 2, 1)]), e("0 poll"), ra(2_500, 0, &[prefix(1, ALL, ALL)]), e("2500 poll")])),
        ("forever: a full table ignores a fifth", file(&[ra(0, 0, &five), e("0 poll"), ra(9, 0, &[prefix(6, 9, 9)]), e("9 poll")])),
        ("forever: beside a prefix that ends", file(&[ra(0, 0, &[prefix(1, 1, 1), prefix(2, ALL, ALL), prefix(3, 1, 0)]), e("0 poll"), e("1000 poll")])),
        ("forever: the same prefix with low bytes, ended: gone", file(&[ra(0, 0, &[prefix(1, ALL, ALL), wide(1, 1, 9, 9)]), e("0 poll"), ra(1, 0, &[wide(1, 1, 0, 0)]), e("1 poll")])),
        ("forever: then off", file(&[ra(0, 9, &[prefix(1, ALL, ALL)]), e("0 poll"), e("1 off")])),
    ]
}

/// Bits past a prefix length, which the Rust keeps. A prefix option is made of its digits, length, valid and preferred.
fn bits_cases() -> Vec<(&'static str, String)> {
    const ALL: u32 = 0xffff_ffff;
    const ONES: &str = "ffffffffffffffffffffffffffffffff";
    let flagged = |addr: &str, len: u8, flags: u8, valid: u32, preferred: u32| {
        format!("0304{len:02x}{flags:02x}{valid:08x}{preferred:08x}00000000{addr}")
    };
    let whole = |addr: &str, len: u8, valid: u32, preferred: u32| flagged(addr, len, 0xc0, valid, preferred);
    let low = |bits: u64, len: u8, valid: u32, preferred: u32| whole(&format!("20010db800000001{bits:016x}"), len, valid, preferred);
    let ra = |time: u64, options: &[String]| {
        format!("{time} ra fe800000000000000000000000000001 86000000000000000000000000000000{}", options.concat())
    };
    let file = |events: &[String]| format!("mac 020000000001\naddresses 0\nevents {}\n{}\n", events.len(), events.join("\n"));
    let one = |options: &[String]| file(&[ra(0, options), "0 poll".into()]);
    let poll = |time: u64| format!("{time} poll");
    let ones = u64::MAX;
    let four: Vec<String> = (1..=4).map(|n| whole(&format!("20010db8{n:08x}0000000000000000"), 64, 9, 5)).collect();
    vec![
        ("bits: one entry without and with bits, refreshed", file(&[ra(0, &[low(0, 64, 9, 5)]), poll(0), ra(1, &[low(1, 64, 8, 4)]), poll(1)])),
        (
            "bits: the same, then withdrawn with others",
            file(&[ra(0, &[low(0, 64, 9, 5)]), poll(0), ra(1, &[low(1, 64, 8, 4)]), poll(1), ra(2, &[low(ones, 64, 0, 0)]), poll(2)]),
        ),
        ("bits: withdrawn, before the sync", file(&[ra(0, &[low(ones, 64, 9, 5)]), poll(0), ra(2, &[low(0, 64, 0, 0)])])),
        ("bits: preferred above valid withdraws nothing", file(&[ra(0, &[low(1, 64, 9, 5)]), poll(0), ra(2, &[low(2, 64, 0, 1)]), poll(2)])),
        ("bits: lengths 63, 65, 100 and 127", one(&[low(ones, 63, 9, 5), low(ones, 65, 9, 5), low(ones, 100, 9, 5), low(ones, 127, 9, 5)])),
        ("bits: lengths 127, 128 and 129", one(&[low(ones, 127, 9, 5), low(ones, 128, 9, 5), low(ones, 129, 9, 5)])),
        (
            "bits: none behind lengths 0, 63, 65 and 127",
            one(&[
                whole(&"0".repeat(32), 0, 9, 5),
                whole("20010db8000000020000000000000000", 63, 9, 5),
                low(1 << 63, 65, 9, 5),
                low(ones - 1, 127, 9, 5),
            ]),
        ),
        ("bits: none behind length 128", one(&[low(ones, 128, 9, 5), low(ones - 1, 128, 8, 4), low(ones, 129, 9, 5)])),
        ("bits: any prefix of length 0 is ::", file(&[ra(0, &[whole(ONES, 0, 9, 5)]), poll(0), ra(1, &[low(7, 0, 8, 4)]), poll(1)])),
        ("bits: fe80:: of length 8 is fe00::", one(&[whole("fe800000000000000000000000000000", 8, 9, 5)])),
        ("bits: ff02:: of length 7 is fe00::", one(&[whole("ff020000000000000000000000000000", 7, 9, 5)])),
        ("bits: fec0:: of length 9 is fe80::, skipped", one(&[whole("fec00000000000000000000000000000", 9, 9, 5)])),
        (
            "bits: a full table takes what it knows and ignores what not",
            file(&[ra(0, &four), poll(0), ra(1, &[low(ones, 64, 8, 4), low(ones, 65, 8, 4)]), poll(1), ra(2, &[low(1, 64, 0, 0)]), poll(2)]),
        ),
        ("bits: infinite lifetimes", file(&[ra(0, &[low(1, 64, ALL, ALL)]), poll(0), ra(1, &[low(2, 64, ALL, 1)]), poll(1), ra(2, &[low(3, 64, 0, 0)])])),
        ("bits: in one message", one(&[low(1, 64, 9, 5), low(2, 64, 8, 4), low(1, 65, 7, 3), low(2, 65, 0, 0)])),
        (
            "bits: of what is not taken",
            file(&[ra(0, &[low(0, 64, 9, 5)]), poll(0), ra(1, &[flagged(ONES, 0, 0x80, 9, 5)]), ra(2, &[low(1, 64, 0, 0), "01".into()]), poll(2)]),
        ),
    ]
}

/// Files found before bits past a prefix length were cleared (request 2026-02). For these rules others would be found now, some with such bits.
const FOUND: &[(&str, &str)] = &[
    (
        "format.odd-digits",
        "mac 42c7bca3b07e\naddresses 0\nevents 1\n0 ra fe800000000000000000000000000001 8\n",
    ),
    (
        "prefix.preferred-above-valid-zero-known",
        "mac 030000000001\naddresses 0\nevents 1\n4001 ra fe800000000000000000000000000001 860000000000b9dc0000000000000000030440c000017449000174497d462aaf20010db8000000040000000000000000030540c00000000000000001ad4d9ede20010db80000000400000000000000000000000000000000030440c00010624d000df8d90000000020010db8000000010000000000000000\n",
    ),
    (
        "prefix.refresh-expired",
        "mac 585232e999c3\naddresses 0\nevents 2\n60000 ra fe800000000000000000000000000001 86009a18403f00009a187dcb4877ea9e030440c00000000a000000050000000020010db8000000030000000000000000\n70000 ra fe800000000000000000000000000001 8600cd6940000000cd6972f9838eba280304404000000004000000030000000020010db8000000030000000000000000030440c00000000a00000002a2299af420010db8000000020000000000000000030440c000008b24000000000000000020010db8000000020000000000000000\n",
    ),
];

/// Files found for rules that request 2026-02 ended, in their places: behind this rule, what they are, and their text.
const ENDED: &[(&str, &str, &str)] = &[
    (
        "formed.bit-cleared",
        "bits: an address of a prefix with low bytes",
        "mac b80372f14619\naddresses 0\nevents 2\n0 ra fe800000000000000000000000000001 860000000000ffff0000000000000000030440c000000001000000000000000020010db8000000010000000000000001\n0 poll\n",
    ),
    (
        "sync.addresses-full",
        "bits: two prefixes that differ in their low bytes are one",
        "mac 020000000001\naddresses 0\nevents 2\n0 ra fe800000000000000000000000000003 860028e2403f000028e2be7c457b7872030440c000000708000000150000000020010db800000001ffffffffffffffff030440c000000708000003470000000020010db8000000010000000000000001\n0 poll\n",
    ),
    (
        "sync.addresses-full",
        "bits: the same, the second longer: one entry, refreshed",
        "mac 00005e005301\naddresses 0\nevents 2\n0 ra fe8000000000000002005efffe005301 8600000000400000000000000000000001010200000000bb030440c000000004000000000000000020010db8000000010000000000000000030440c000001c20000000000000000020010db800000001000000000000000101010200000000bb01010c034f0bd066\n60000 poll\n",
    ),
    (
        "sync.addresses-full",
        "bits: the same, the second shorter: one entry, ended",
        "mac 020000000001\naddresses 0\nevents 2\n0 ra fe800000000000000000000000000003 86000000000000070000000000000000030440c00010624d0010624d0000000020010db8000000010000000000000001030440c000000001000000010000000020010db8000000010000000000000000\n1001 poll\n",
    ),
];

/// What the event program holds of its input, and of its output.
const IN_BLOCK: usize = 69_632;
const OUT_BLOCK: usize = 65_536;
/// One whose files have a link-local address, and refusals of each number.
const LARGE_SEED: u64 = 149;

/// Files above one block of input, and above one block of output.
fn large_cases() -> Vec<(&'static str, Vec<u8>)> {
    vec![
        ("large: more than three blocks of input", generate::long_input(LARGE_SEED, IN_BLOCK)),
        ("large: more than two blocks of output", generate::long_output(LARGE_SEED, 2 * OUT_BLOCK)),
        ("large: one byte more than a block of input", one_byte_more(IN_BLOCK)),
    ]
}

/// A reader that fills the block is brought the last byte alone: a digit, behind which no newline stands.
fn one_byte_more(block: usize) -> Vec<u8> {
    let last = "9 start 20010db8000000010000000000000007";
    let polls = 18;
    let mut text = format!("mac 020000000001\naddresses 1\nfe80000000000000000000fffe000001 64\nevents {}\n", polls + 1);
    for left in (1..=polls).rev() {
        let width = (block + 1 - last.len() - text.len()) / left - " poll\n".len();
        text += &format!("{:0>width$} poll\n", 8);
    }
    text += last;
    assert_eq!(text.len(), block + 1);
    text.into_bytes()
}

/// Inputs of the format, most with one thing wrong. `@` stands for the good file below.
fn format_cases() -> Vec<(String, Vec<u8>)> {
    let good = "mac 020000000001\naddresses 2\nfe80000000000000000000fffe000001 64\n20010db8000000010000000000000005 64\nevents 3\n0 up\n0 poll\n1 start 20010db8000000010000000000000007\n";
    let mut cases: Vec<(String, Vec<u8>)> = Vec::new();
    let mut case = |name: &str, text: String| cases.push((format!("format: {name}"), text.into_bytes()));
    // One line of the good file (from 1) replaced; none stands for left out.
    let with = |n: usize, line: Option<&str>| -> String {
        let mut lines: Vec<&str> = good.lines().collect();
        match line {
            Some(line) => lines[n - 1] = line,
            None => {
                lines.remove(n - 1);
            }
        }
        lines.join("\n") + "\n"
    };
    // The good file with one more event.
    let event = |line: &str| good.replace("events 3", "events 4") + line + "\n";
    // The good file with these addresses.
    let addresses = |lines: &[String]| {
        format!(
            "mac 020000000001\naddresses {}\n{}\nevents 1\n0 up\n",
            lines.len(),
            lines.join("\n")
        )
    };

    case("good", good.into());
    case("good, the last line without its newline", good.trim_end().into());
    case("empty input", String::new());
    case("a newline only", "\n".into());
    case("a carriage return in front of each newline", good.replace('\n', "\r\n"));
    case("an empty line at the end", good.to_string() + "\n");
    case("a space as last line", good.to_string() + " ");
    case("a surplus event", good.to_string() + "2 poll\n");
    case("two surplus lines", good.to_string() + "2 poll\n2 poll\n");
    case("a surplus line that is too long", good.to_string() + &"0".repeat(5000) + "\n");
    case("the first line only", "mac 020000000001\n".into());
    case("the first line only, without newline", "mac 020000000001".into());
    case("two lines only", "mac 020000000001\naddresses 0\n".into());
    case("no events and no end", "mac 020000000001\naddresses 0\nevents 0".into());
    case("no events", "mac 020000000001\naddresses 0\nevents 0\n".into());
    case("no events, but a line", "mac 020000000001\naddresses 0\nevents 0\n0 up\n".into());
    for n in 1..=8 {
        case(&format!("line {n} left out"), with(n, None));
        case(&format!("line {n} empty"), with(n, Some("")));
        let line = good.lines().nth(n - 1).unwrap().to_string();
        case(&format!("line {n} with a carriage return"), with(n, Some(&format!("{line}\r"))));
        case(&format!("line {n} with a space in front"), with(n, Some(&format!(" {line}"))));
        case(&format!("line {n} with a space at the end"), with(n, Some(&format!("{line} "))));
        case(&format!("line {n} with two spaces"), with(n, Some(&line.replacen(' ', "  ", 1))));
        case(&format!("line {n} with a tab"), with(n, Some(&line.replacen(' ', "\t", 1))));
        case(&format!("line {n} with a field more"), with(n, Some(&format!("{line} 0"))));
    }
    for line in ["mac", "mac 02000000000", "mac 0200000000011", "mac 02000000000g", "MAC 020000000001", "mac 02:00:00:00:00:01", "020000000001"] {
        case(&format!("first line `{line}`"), with(1, Some(line)));
    }
    case("mac in upper case", with(1, Some("mac 0200000000AB")));
    case("a group mac", with(1, Some("mac 010000000001")));
    for n in ["0", "1", "3", "02", "000000000000000000000000000002", "18446744073709551615", "18446744073709551616", "36893488147419103234", "-2", "+2", "2.", "x", "0x2", "2 "] {
        case(&format!("addresses {n}"), with(2, Some(&format!("addresses {n}"))));
        case(&format!("events {n}"), with(5, Some(&format!("events {n}"))));
    }
    case("address instead of addresses", with(2, Some("address 2")));
    case("event instead of events", with(5, Some("event 3")));
    for line in [
        "fe80000000000000000000fffe000001",
        "fe80000000000000000000fffe000001 129",
        "fe80000000000000000000fffe000001 128",
        "fe80000000000000000000fffe000001 0",
        "fe80000000000000000000fffe000001 00064",
        "fe80000000000000000000fffe000001 256",
        "fe80000000000000000000fffe000001 18446744073709551615",
        "fe80000000000000000000fffe000001 18446744073709551616",
        "fe80000000000000000000fffe000001 -1",
        "fe80000000000000000000fffe00001 64",
        "fe80000000000000000000fffe0000001 64",
        "fe80000000000000000000fffe00000g 64",
        "FE80000000000000000000FFFE000001 64",
        "fe80::1 64",
        "20010db8000000010000000000000005 64",
        "20010db8000000010000000000000005 63",
        "00000000000000000000000000000000 64",
        "ff020000000000000000000000000001 64",
    ] {
        case(&format!("first address `{line}`"), with(3, Some(line)));
    }
    let many: Vec<String> = (0..10).map(|i| format!("20010db80000000000000000000000{i:02x} 64")).collect();
    case("eight addresses", addresses(&many[..8]));
    case("nine addresses: number 8", addresses(&many[..9]));
    case("ten addresses: number 8 at the ninth", addresses(&many));
    let mut again = many[..8].to_vec();
    again.push(again[3].clone());
    case("eight addresses and one of them again: number 9", addresses(&again));
    let mut long = many[..8].to_vec();
    long.push("20010db8000000000000000000000020 129".into());
    case("eight addresses and a ninth with 129: number 14", addresses(&long));
    case("addresses 9 with eight lines", addresses(&many[..8]).replace("addresses 8", "addresses 9"));
    for line in [
        "0",
        "0 ",
        "poll",
        "x poll",
        "-1 poll",
        "+1 poll",
        "1.5 poll",
        "0x1 poll",
        "007 poll",
        "18446744073709551615 poll",
        "18446744073709551616 poll",
        "4611686018427387904 poll",
        "4611686018427387905 poll",
        "4611686018427387905 sweep",
        "4611686018427387905 fill 20010db8000000010000000000000007 020000000001",
        "4611686018427387905 ra fe800000000000000000000000000001 86",
        "18446744073709551615 up",
        "18446744073709551615 down",
        "18446744073709551615 off",
        "18446744073709551615 start 20010db8000000010000000000000008",
        "18446744073709551615 remove 20010db8000000010000000000000007",
        "0 POLL",
        "0 polls",
        "0 up 0",
        "0 down 0",
        "0 poll 0",
        "0 sweep 0",
        "0 off 0",
        "0 ra",
        "0 ra fe800000000000000000000000000001",
        "0 ra fe800000000000000000000000000001 ",
        "0 ra fe800000000000000000000000000001 8",
        "0 ra fe800000000000000000000000000001 860",
        "0 ra fe800000000000000000000000000001 8g",
        "0 ra fe800000000000000000000000000001 86 00",
        "0 ra fe80000000000000000000000000001 86",
        "0 ra fe8000000000000000000000000000001 86",
        "0 start",
        "0 start 1",
        "0 start 20010db800000001000000000000000g",
        "0 start 20010DB800000001000000000000000A",
        "0 start 20010db8000000010000000000000007 0",
        "0 remove",
        "0 remove 20010db800000001000000000000007",
        "0 fill 20010db8000000010000000000000007",
        "0 fill 20010db8000000010000000000000007 02000000000",
        "0 fill 20010db8000000010000000000000007 0200000000010",
        "0 fill 20010db8000000010000000000000007 02000000000g",
        "0 fill 20010DB8000000010000000000000007 0200000000AB",
        "0 fill 20010db8000000010000000000000007 020000000001 0",
    ] {
        case(&format!("event `{line}`"), event(line));
    }
    for length in [4095, 4096, 4097] {
        let zeros = "0".repeat(length - 7);
        case(&format!("an event of {length} bytes, by leading zeros"), event(&format!("{zeros}77 poll")));
    }
    for length in [4095, 4096, 4097, 4098] {
        let zeros = "0".repeat(length - "addresses 2".len());
        case(&format!("an addresses line of {length} bytes"), with(2, Some(&format!("addresses {zeros}2"))));
    }
    for (length, head) in [(4096, "7 ra "), (4097, "77 ra "), (4098, "7 ra ")] {
        let head = format!("{head}fe800000000000000000000000000001 ");
        let mut message = "86000000000007080000000000000000".to_string();
        while head.len() + message.len() + 16 <= length {
            message += "0501000000000500";
        }
        while head.len() + message.len() + 2 <= length {
            message += "00";
        }
        let line = head + &message;
        assert_eq!(line.len() / 2, length / 2);
        case(&format!("a message line of {} bytes", line.len()), event(&line));
    }
    let mut odd = good.as_bytes().to_vec();
    odd[4] = 0xff;
    cases.push(("format: a byte that is no text".into(), odd));
    let mut odd = good.as_bytes().to_vec();
    odd[4] = 0;
    cases.push(("format: a zero byte".into(), odd));
    cases
}

fn fired(input: &[u8]) -> Vec<usize> {
    model::marks::take();
    model::script::run(input);
    let fired = model::marks::take();
    (0..fired.len()).filter(|i| fired[*i] > 0).collect()
}

struct Record {
    folder: PathBuf,
    seen: HashSet<Vec<u8>>,
    number: usize,
    reached: HashSet<usize>,
    by_model: usize,
    bytes: usize,
}

impl Record {
    /// A case with the real code's answer; with the model's if it has bits past a prefix length.
    fn put(&mut self, name: &str, input: &[u8]) {
        let outcome = events::run(input);
        if outcome.outside_by_another || !self.seen.insert(input.to_vec()) {
            return;
        }
        if outcome.outside.is_some() {
            return self.put_model(name, input);
        }
        if outcome.output != model::script::run(input) {
            eprintln!("{name}: the model differs");
            exit(1)
        }
        self.write(name, input, &outcome.output);
    }

    /// A case with the model's answer.
    fn put_model(&mut self, name: &str, input: &[u8]) {
        self.by_model += 1;
        let output = model::script::run(input);
        self.write(name, input, &output);
    }

    fn write(&mut self, name: &str, input: &[u8], output: &str) {
        self.number += 1;
        let path = |end: &str| self.folder.join(format!("{}.{end}", self.number));
        fs::write(path("in"), input).unwrap();
        fs::write(path("out"), output).unwrap();
        self.bytes += input.len() + output.len();
        self.reached.extend(fired(input));
        println!("{} {name}", self.number);
    }
}

fn main() {
    xarxa::world::quiet_expected_panics();
    let (folder, seed, candidates) = oracle::folder::arguments(USAGE, 60_000);
    let mut record = Record {
        folder,
        seen: HashSet::new(),
        number: 0,
        reached: HashSet::new(),
        by_model: 0,
        bytes: 0,
    };
    for (name, text) in WRITTEN {
        record.put(name, text.as_bytes());
    }

    for (name, text) in more_written() {
        record.put(name, text.as_bytes());
    }

    // For each rule the smallest file that fires it, made smaller; one that another's file holds already stays.
    let names = model::marks::names();
    let mut smallest: Vec<Option<Vec<u8>>> = vec![None; names.len()];
    for n in 0..candidates {
        let input = generate::file(seed, n, Reach::Bits);
        if events::run(&input).outside_by_another {
            continue;
        }
        for rule in fired(&input) {
            if smallest[rule].as_ref().is_none_or(|s| input.len() < s.len()) {
                smallest[rule] = Some(input.clone());
            }
        }
    }
    for (rule, input) in smallest.into_iter().enumerate() {
        if ["calls.", "forever.", "length.", "bits."].iter().any(|s| names[rule].starts_with(s)) {
            continue;
        }
        if let Some((_, text)) = FOUND.iter().find(|f| f.0 == names[rule]) {
            record.put(names[rule], text.as_bytes());
        } else if let Some(input) = input {
            let small = shrink::shrink(&input, |i| fired(i).contains(&rule) && !events::run(i).outside_by_another);
            record.put(names[rule], &small);
        } else {
            eprintln!("no file fires {}", names[rule]);
        }
        for (_, name, text) in ENDED.iter().filter(|e| e.0 == names[rule]) {
            record.put(name, text.as_bytes());
        }
    }

    for (name, input) in format_cases() {
        record.put(&name, &input);
    }
    // Some whole files, for what rules do together.
    let mut whole = 0;
    for n in candidates.. {
        let input = generate::file(seed, n, Reach::Bits);
        if input.len() < 12_000 && input.iter().filter(|b| **b == b'\n').count() > 12 {
            record.put("by chance", &input);
            whole += 1;
        }
        if whole == 60 {
            break;
        }
    }
    for (name, text) in forever_cases() {
        record.put_model(name, text.as_bytes());
    }
    for (name, text) in bits_cases() {
        match events::run(text.as_bytes()).outside {
            Some(_) => record.put_model(name, text.as_bytes()),
            None => record.put(name, text.as_bytes()),
        }
    }
    // These must not be passed over.
    for (name, input) in large_cases() {
        if let Some(rule) = events::run(&input).outside {
            eprintln!("{name}: {rule}");
            exit(1)
        }
        record.put(name, &input);
    }
    let total: Vec<usize> = (0..names.len()).filter(|i| !names[*i].starts_with("calls.")).collect();
    let reached = total.iter().filter(|i| record.reached.contains(i)).count();
    eprintln!(
        "{} cases, {} of them by the model, {} bytes; rules reached: {reached} of {}",
        record.number,
        record.by_model,
        record.bytes,
        total.len()
    );
}

//! Each call with each of its answers and refusals.

use super::*;
use crate::generate;

/// A neighbour of each kind: 1 Stale, 2 Incomplete, 3 Reachable, 4 Started.
fn four_kinds(iface: u64) -> Vec<String> {
    lines![
        format!("insert {iface} {} {} 0", host(1), mac(1)),
        format!("start {iface} {}", host(2)),
        format!("sweep {iface} 0 -"),
        format!("fill {iface} {} {} 0", host(3), mac(3)),
        format!("start {iface} {}", host(4)),
    ]
}

/// Each call with each of its answers.
pub fn answers() -> Vec<Scene> {
    let of_each = |word: &str| -> Vec<String> { (1..=5).map(|n| format!("{word} 0 {}", host(n))).collect() };
    let mut cases = vec![
        scene("answers: new", lines!["new 020000000001 0", format!("start 0 {}", host(1)), "cache", "new 0200000000ab 5"]),
        scene(
            "answers: lookup",
            joined(&[
                four_kinds(0),
                of_each("lookup"),
                lines![
                    // Reachable past its time, until a sweep sees it.
                    format!("insert 0 {} {} 5", host(6), mac(6)),
                    "poll 0 90000 - 16",
                    format!("lookup 0 {}", host(6)),
                    format!("lookup 0 {}", host(3)),
                    "sweep 0 60000 -",
                    format!("lookup 0 {}", host(6)),
                    format!("lookup 0 {}", host(3)),
                ],
            ]),
        ),
        scene("answers: start", joined(&[four_kinds(0), of_each("start")])),
        scene(
            "answers: fill",
            joined(&[four_kinds(0), (1..=5).map(|n| format!("fill 0 {} {} {}", host(n), mac(16 + n), 100 * n)).collect()]),
        ),
        scene(
            "answers: insert",
            joined(&[four_kinds(0), (1..=5).map(|n| format!("insert 0 {} {} {}", host(n), mac(16 + n), 100 * n)).collect()]),
        ),
        scene(
            "answers: get",
            joined(&[four_kinds(0), of_each("get"), lines![format!("get 0 {ALL_NODES}"), format!("get 0 {UNSPECIFIED}")]]),
        ),
        scene(
            "answers: remove",
            joined(&[
                four_kinds(0),
                of_each("remove"),
                of_each("remove"),
                lines![format!("remove 0 {ALL_NODES}"), format!("remove 0 {UNSPECIFIED}")],
            ]),
        ),
        scene("answers: clear", joined(&[lines!["clear 0"], four_kinds(0), lines!["cache", "clear 0", "cache", "clear 0"]])),
        scene(
            "answers: sweep",
            joined(&[
                lines!["sweep 0 0 -"],
                four_kinds(0),
                lines!["sweep 0 0 -", "sweep 0 999 -", "cache", "sweep 0 1000 -", "cache", "sweep 0 2000 -", "cache", "sweep 0 3000 -"],
                lines!["cache", "sweep 0 59999 -", "sweep 0 60000 -"],
            ]),
        ),
        scene(
            "answers: push",
            joined(&[
                lines![format!("push 0 {} 0", host(1)), format!("push 0 {} 4294967295", host(2)), format!("push 0 {} 0", host(1))],
                lines![format!("push 0 {ALL_NODES} 7"), format!("push 0 {UNSPECIFIED} 8")],
            ]),
        ),
        scene(
            "answers: release",
            joined(&[
                lines![format!("release 0 {}", host(1))],
                // Two keys in turn, the first three times.
                [(1, 10), (2, 20), (1, 11), (1, 12), (2, 21)].iter().map(|(n, h)| format!("push 0 {} {h}", host(*n))).collect(),
                lines![
                    format!("release 0 {}", host(1)),
                    "queue",
                    format!("release 0 {}", host(1)),
                    "queue",
                    format!("release 0 {}", host(2))
                ],
                lines![
                    "queue",
                    format!("release 0 {}", host(1)),
                    format!("release 0 {}", host(1)),
                    format!("release 0 {}", host(3)),
                    "queue"
                ],
                lines![format!("release 0 {}", host(2)), format!("release 0 {}", host(2))],
            ]),
        ),
        scene(
            "answers: orphans",
            joined(&[
                lines!["orphans"],
                four_kinds(0),
                // Of Stale, Incomplete, Reachable, Started and absent neighbours, then the same keys again.
                (1..=5).map(|n| format!("push 0 {} {}", host(n), 10 + n)).collect(),
                lines!["orphans", "queue", "sweep 0 60000 -", "orphans", "queue", format!("remove 0 {}", host(2)), "orphans", "orphans"],
            ]),
        ),
        scene(
            "answers: purge",
            joined(&[
                lines!["purge 0"],
                [(0, 1), (1, 2), (0, 3), (2, 4), (0, 5)].iter().map(|(i, h)| format!("push {i} {} {h}", host(1))).collect(),
                lines!["purge 2", "queue", "purge 0", "queue", "purge 0", "purge 1"],
            ]),
        ),
        scene(
            "answers: address",
            lines![
                format!("address 0 {OWN} 64"),
                format!("address 0 {OWN} 128"),
                format!("address 0 {OWN} 0"),
                format!("address 0 {UNSPECIFIED} 64"),
                format!("address 0 {} 128", host(1)),
            ],
        ),
        scene("answers: route", lines![format!("route 0 {}", router(1)), format!("route 0 {}", host(1)), format!("route 3 {}", router(1))]),
        modelled(
            "answers: route, by what is no unicast",
            lines![format!("route 0 {UNSPECIFIED}"), format!("route 0 {ALL_NODES}"), format!("route 0 {UNSPECIFIED}")],
        ),
        scene(
            "answers: routeto",
            lines![
                format!("routeto 0 {} 64 {}", host(0), router(1)),
                format!("routeto 0 {} 0 {}", host(0), router(1)),
                format!("routeto 0 {} 128 {}", host(0), router(1)),
                format!("routeto 0 {} 64 {}", host(1), router(1)),
                format!("routeto 0 {} 64 {}", host(0), router(2)),
                format!("routeto 3 {} 64 {}", host(0), router(1)),
                "destinations",
                format!("routeto 0 {} 64 {}", host(0), router(1)),
                format!("routeto 0 {} 64 {}", host(1), router(1)),
                "destinations",
            ],
        ),
        modelled(
            "answers: routeto, by what is no unicast",
            lines![format!("routeto 0 {} 64 {ALL_NODES}", host(0)), format!("routeto 0 {ALL_NODES} 8 {UNSPECIFIED}"), "destinations"],
        ),
        scene(
            "answers: route and routeto to everywhere are one",
            joined(&[
                lines![
                    "destinations",
                    format!("route 0 {}", router(1)),
                    format!("routeto 0 {UNSPECIFIED} 0 {}", router(1)),
                    format!("routeto 0 {UNSPECIFIED} 0 {}", router(2))
                ],
                lines![
                    format!("route 0 {}", router(2)),
                    ra(0, 3, 0, 9, &[]),
                    "poll 0 0 - 16",
                    format!("routeto 0 {UNSPECIFIED} 0 {}", router(3)),
                    "destinations",
                    "poll 0 9000 - 16",
                    "destinations"
                ],
            ]),
        ),
        scene(
            "answers: routeto, not heeded by SLAAC's default route",
            lines![
                format!("routeto 0 {} 64 {}", host(0), router(1)),
                ra(0, 1, 0, 9, &[]),
                "poll 0 0 - 16",
                "destinations",
                "routes",
                "off 0",
                "destinations"
            ],
        ),
        scene(
            "answers: source",
            lines![
                "source 0",
                format!("address 0 {} 64", host(1)),
                "source 0",
                format!("address 0 {ALL_NODES} 64"),
                format!("address 0 {} 128", router(7)),
                "source 0",
                format!("address 0 {OWN} 64"),
                "source 0",
                "source 1",
                format!("address 3 {OWN} 64"),
                "source 3",
                "source 2",
            ],
        ),
        modelled(
            "answers: source, link-local by ten bits",
            lines![
                format!("address 0 fec00000000000000000000000000001 64"),
                format!("address 0 febf0000000000000000000000000001 64"),
                format!("address 0 {OWN} 64"),
                "source 0"
            ],
        ),
        scene(
            "answers: neighbors",
            joined(&[
                lines!["neighbors"],
                four_kinds(0),
                lines!["neighbors", "clear 0", "neighbors"],
                four_kinds(3),
                four_kinds(1),
                lines!["neighbors"],
            ]),
        ),
        scene(
            "answers: link",
            lines![
                format!("address 0 {OWN} 64"),
                "poll 0 0 - 16",
                "link 0 up",
                "link 0 up",
                "poll 0 0 - 16",
                "link 0 down",
                "poll 0 4000 - 16",
                "link 0 down",
                "link 0 up",
                "poll 0 4000 - 16",
            ],
        ),
        scene(
            "answers: restart",
            joined(&[
                lines!["restart 0", format!("address 0 {OWN} 64"), "link 0 up", "poll 0 0 - 16", "restart 0", "slaac 0", "poll 0 1 - 16"],
                lines![ra(0, 1, 2, 9, &[prefix(1, 9, 5)]), "slaac 0", "restart 0", "slaac 0", "prefixes 0", "routers 0", "poll 0 3 - 16"],
                lines!["off 0", "restart 0", "slaac 0"],
            ]),
        ),
        scene(
            "answers: on",
            joined(&[
                lines!["on 0", ra(0, 1, 0, 9, &[prefix(1, 9, 5)]), "on 0", "slaac 0", "prefixes 0", "off 0", "slaac 0", "on 0", "slaac 0"],
                lines!["prefixes 0", "routers 0", "addresses 0"],
            ]),
        ),
        scene(
            "answers: off",
            lines!["off 0", "off 0", "slaac 0", "prefixes 0", "routers 0", ra(0, 1, 0, 9, &[]), "poll 0 0 - 16", "poll 0 0 17 16"],
        ),
        scene(
            "answers: poll, three solicitations",
            joined(&[
                lines![
                    format!("address 0 {OWN} 64"),
                    "link 0 up",
                    "slaac 0",
                    "poll 0 0 - 16",
                    "slaac 0",
                    "poll 0 3999 - 16",
                    "poll 0 4000 - 17"
                ],
                lines![
                    "slaac 0",
                    "poll 0 8000 - 1500",
                    "slaac 0",
                    "poll 0 12000 - 16",
                    "poll 0 99000 - 16",
                    "restart 0",
                    "poll 0 99000 - 16"
                ],
            ]),
        ),
        scene(
            "answers: poll, no room",
            joined(&[
                lines![
                    format!("address 0 {OWN} 64"),
                    "link 0 up",
                    "poll 0 0 - 0",
                    "slaac 0",
                    "poll 0 4000 - 15",
                    "poll 0 8000 - 1",
                    "slaac 0"
                ],
                lines!["restart 0", "poll 0 9000 - 18446744073709551615"],
            ]),
        ),
        scene(
            "answers: poll, from the first link-local address",
            lines![
                format!("address 0 {} 64", host(1)),
                format!("address 0 {} 64", router(9)),
                format!("address 0 {OWN} 64"),
                "link 0 up",
                "poll 0 0 - 16",
            ],
        ),
        scene("answers: poll, no link-local address", lines![format!("address 0 {} 64", host(1)), "link 0 up", "poll 0 0 - 16"]),
    ];
    let solicit: Vec<String> = [0usize, 1, 15, 16, 17, 40]
        .iter()
        .map(|n| format!("solicit {} {OWN} 020000000001", if *n == 0 { "-".into() } else { "5a".repeat(*n) }))
        .collect();
    cases.push(scene("answers: solicit", solicit));
    cases.push(modelled(
        "answers: solicit, from any source",
        [UNSPECIFIED, &host(1), ALL_NODES, "febf0000000000000000000000000001", "fe800000000000010000000000000001"]
            .iter()
            .flat_map(|source| [15, 16].map(|bytes| format!("solicit {} {source} {}", "5a".repeat(bytes), mac(1))))
            .collect(),
    ));
    let mut rng = generate::Rng::new(2, 1);
    let carries =
        (0..24).map(|_| format!("solicit {} {:032x} 020000000001", "00".repeat(16), generate::carrying(&mut rng, 0x0200_0000_0001)));
    cases.push(scene("answers: solicit, checksums with carries", carries.collect()));
    cases
}

/// What a refused call must leave: something in each table of interface 0.
fn furnished() -> Vec<String> {
    lines![
        format!("address 0 {OWN} 64"),
        "link 0 up",
        ra(0, 1, 0, 9, &[prefix(1, 9, 5), lladdr(&mac(1))]),
        "poll 0 0 - 16",
        format!("start 0 {}", host(2)),
        format!("push 0 {} 7", host(2)),
        format!("route 0 {}", router(2)),
    ]
}

/// Lines that break two or more checks at once: each pair of neighbours in the order of the refusals, and pairs further apart.
pub fn refusals() -> Vec<Scene> {
    let late = LATEST + 1;
    let good = host(5);
    let group = mac(1).replacen("02", "03", 1);
    let after = |lines: Vec<String>| joined(&[furnished(), lines]);
    let mut cases = Vec::new();
    for word in ["lookup", "start"] {
        cases.push(scene(
            format!("refusals: {word}"),
            after(lines![
                format!("{word} 0 {ALL_NODES}"),
                format!("{word} 0 {UNSPECIFIED}"),
                format!("{word} 0 ff000000000000000000000000000000"),
                format!("{word} 0 feffffffffffffffffffffffffffffff"),
                format!("{word} 4 {good}"),
                // 7 before 2.
                format!("{word} 4 {ALL_NODES}"),
                format!("{word} 255 {UNSPECIFIED}"),
            ]),
        ));
    }
    for word in ["fill", "insert"] {
        cases.push(scene(
            format!("refusals: {word}"),
            after(lines![
                format!("{word} 0 {good} {} {late}", mac(1)),
                format!("{word} 4 {good} {} 5", mac(1)),
                format!("{word} 0 {ALL_NODES} {} 5", mac(1)),
                format!("{word} 0 {UNSPECIFIED} {} 5", mac(1)),
                format!("{word} 0 {good} {GROUP_MAC} 5"),
                format!("{word} 0 {good} {group} 5"),
                format!("{word} 0 {good} ffffffffffff 5"),
                // 3 before 7, 7 before 2, 3 before 2, both of 2, all.
                format!("{word} 4 {good} {} {late}", mac(1)),
                format!("{word} 4 {ALL_NODES} {} 5", mac(1)),
                format!("{word} 4 {good} {GROUP_MAC} 5"),
                format!("{word} 0 {ALL_NODES} {} {late}", mac(1)),
                format!("{word} 0 {good} {GROUP_MAC} {late}"),
                format!("{word} 0 {ALL_NODES} {GROUP_MAC} 5"),
                format!("{word} 4 {ALL_NODES} {GROUP_MAC} {late}"),
            ]),
        ));
    }
    // A hardware address is unicast by one bit alone.
    let first_bytes = [0x00, 0x01, 0x02, 0x03, 0x80, 0x81, 0xfe, 0xff];
    let both = |b: &u8| ["fill", "insert"].map(|word| format!("{word} 0 {good} {b:02x}0000000000 5"));
    cases.push(scene("refusals: the first byte of a hardware address", first_bytes.iter().flat_map(both).collect()));
    cases.push(scene(
        "refusals: sweep",
        after(lines![format!("sweep 0 {late} 5"), "sweep 4 5000 5", format!("sweep 4 {late} -"), format!("sweep 255 {} 5", u64::MAX)]),
    ));
    cases.push(scene(
        "refusals: poll",
        after(lines![
            format!("poll 0 {late} 5 16"),
            "poll 4 5000 5 16",
            format!("poll 4 {late} - 16"),
            format!("poll 0 {late} - 0"),
            "off 0",
            // 3 and 7 before Off.
            format!("poll 0 {late} 5 16"),
            "poll 4 0 5 16",
            "poll 0 0 5 16",
        ]),
    ));
    let malformed = format!("{}0100", advert(0, 9, &[]));
    let short = advert(0, 9, &[])[..30].to_string();
    let other_type = malformed.replacen("86", "85", 1);
    let other_code = malformed.replacen("8600", "8601", 1);
    let fine = advert(0xc0, 77, &[prefix(3, 9, 9), lladdr(&mac(9))]);
    let global = host(1);
    let local = router(7);
    let ra_pairs = lines![
        format!("ra 0 {local} {late} {fine}"),
        format!("ra 4 {local} 0 {fine}"),
        format!("ra 0 {local} 0 {short}"),
        format!("ra 0 {local} 0 -"),
        format!("ra 0 {local} 0 {}", fine.replacen("86", "85", 1)),
        format!("ra 0 {local} 0 {}", fine.replacen("86", "87", 1)),
        format!("ra 0 {local} 0 {}", fine.replacen("8600", "8601", 1)),
        format!("ra 0 {global} 0 {fine}"),
        format!("ra 0 {UNSPECIFIED} 0 {fine}"),
        format!("ra 0 {ALL_NODES} 0 {fine}"),
        format!("ra 0 fec00000000000000000000000000001 0 {fine}"),
        format!("ra 0 fe7fffffffffffffffffffffffffffff 0 {fine}"),
        format!("ra 0 {local} 0 {malformed}"),
        // 3 before 7, 5, 6 and 1.
        format!("ra 4 {local} {late} {fine}"),
        format!("ra 0 {local} {late} {short}"),
        format!("ra 0 {global} {late} {fine}"),
        format!("ra 0 {local} {late} {malformed}"),
        // 7 before 5, 6 and 1.
        format!("ra 4 {local} 0 {short}"),
        format!("ra 4 {global} 0 {fine}"),
        format!("ra 4 {local} 0 {malformed}"),
        // 5 before 6 and 1.
        format!("ra 0 {global} 0 {short}"),
        format!("ra 0 {global} 0 {}", fine.replacen("86", "85", 1)),
        format!("ra 0 {global} 0 {}", fine.replacen("8600", "8601", 1)),
        format!("ra 0 {local} 0 {other_type}"),
        format!("ra 0 {local} 0 {other_code}"),
        // 6 before 1.
        format!("ra 0 {global} 0 {malformed}"),
        // All of them.
        format!("ra 4 {global} {late} {other_type}"),
    ];
    cases.push(scene("refusals: ra", after(ra_pairs.clone())));
    cases.push(scene("refusals: ra, with SLAAC off", joined(&[furnished(), lines!["off 0"], ra_pairs])));
    let many: Vec<String> = (1..=ADDRESSES).map(|n| format!("address 0 {} 64", host(n))).collect();
    cases.push(scene(
        "refusals: address",
        joined(&[
            lines![
                format!("address 0 {} 129", host(1)),
                format!("address 0 {} 18446744073709551615", host(1)),
                format!("address 0 {} 256", host(1))
            ],
            many,
            lines![
                format!("address 0 {} 64", host(9)),
                format!("address 0 {} 64", host(1)),
                format!("address 0 {} 129", host(9)),
                format!("address 0 {} 65", host(1)),
                // 7 before 14, 9 and 8; 14 before 9 and 8; 9 before 8.
                format!("address 4 {} 129", host(9)),
                format!("address 4 {} 64", host(1)),
                format!("address 4 {} 64", host(9)),
                format!("address 0 {} 192", host(1)),
                format!("address 0 {} 320", host(1)),
                format!("address 0 {} 64", host(8)),
            ],
        ]),
    ));
    cases.push(scene(
        "refusals: address, one that SLAAC formed",
        joined(&[
            furnished(),
            lines![format!("address 0 {} 64", formed(1)), format!("address 0 {} 63", formed(1)), format!("address 1 {} 64", formed(1))],
        ]),
    ));
    let many: Vec<String> = (1..=ROUTES).map(|n| format!("route {} {}", n % 4, router(n))).collect();
    cases.push(scene(
        "refusals: route",
        joined(&[
            lines![format!("route 1 {}", router(1)), format!("route 1 {}", router(1)), new()],
            many,
            lines![
                format!("route 1 {}", router(9)),
                format!("route 1 {}", router(1)),
                // 7 before 9 and 8; the same router on another interface is another route; 9 before 8.
                format!("route 4 {}", router(1)),
                format!("route 4 {}", router(9)),
                format!("route 2 {}", router(1)),
                format!("route 0 {}", router(8)),
            ],
        ]),
    ));
    let many: Vec<String> = (1..=ROUTES).map(|n| format!("routeto {} {} 64 {}", n % 4, host(n), router(1))).collect();
    cases.push(scene(
        "refusals: routeto",
        joined(&[
            lines![
                format!("routeto 0 {} 129 {}", host(1), router(1)),
                format!("routeto 0 {} 320 {}", host(1), router(1)),
                format!("routeto 0 {} 18446744073709551615 {}", host(1), router(1))
            ],
            lines![format!("routeto 4 {} 64 {}", host(1), router(1)), format!("routeto 4 {} 129 {}", host(1), router(1))],
            many,
            lines![
                "destinations",
                format!("routeto 1 {} 64 {}", host(9), router(1)),
                format!("routeto 1 {} 63 {}", host(1), router(1)),
                format!("routeto 1 {} 64 {}", host(1), router(2)),
                format!("routeto 2 {} 64 {}", host(1), router(1)),
                format!("route 1 {}", router(1)),
                format!("routeto 1 {} 64 {}", host(1), router(1)),
                // 7 before 14, 9 and 8; 14 before 9 and 8; 9 before 8.
                format!("routeto 4 {} 129 {}", host(9), router(1)),
                format!("routeto 4 {} 64 {}", host(1), router(1)),
                format!("routeto 4 {} 64 {}", host(9), router(1)),
                format!("routeto 1 {} 129 {}", host(9), router(1)),
                format!("routeto 1 {} 320 {}", host(1), router(1)),
                format!("routeto 0 {} 64 {}", host(8), router(1)),
                "destinations",
            ],
        ]),
    ));
    cases.push(scene(
        "refusals: route, beside SLAAC's",
        joined(&[
            furnished(),
            lines![format!("route 0 {}", router(1)), format!("route 0 {}", router(1)), format!("route 1 {}", router(1))],
        ]),
    ));
    cases.push(scene(
        "refusals: calls with number 7 alone, of a key that is no unicast",
        after(lines![
            format!("get 4 {ALL_NODES}"),
            format!("remove 4 {UNSPECIFIED}"),
            format!("push 4 {ALL_NODES} 1"),
            format!("release 4 {ALL_NODES}"),
        ]),
    ));
    cases
}

/// Times at the latest and one above, for each call that takes one.
pub fn latest() -> Vec<Scene> {
    let first = format!("new 020000000001 {LATEST}");
    let times = [LATEST, LATEST + 1, 1 << 63, u64::MAX];
    let wide = advert(0, 65535, &[prefix(1, 1_000_000, 900_000), lladdr(&mac(1))]);
    // What is in front of the time, and behind it.
    let calls = [
        ("fill", format!("fill 1 {} {}", host(1), mac(1)), ""),
        ("insert", format!("insert 1 {} {}", host(1), mac(1)), ""),
        ("sweep", "sweep 1".to_string(), " -"),
        ("poll", "poll 1".to_string(), " - 16"),
        ("ra", format!("ra 1 {}", router(1)), &*format!(" {wide}").leak()),
    ];
    let mut cases = Vec::new();
    for (word, front, behind) in &calls {
        let mut lines =
            lines![first, format!("address 1 {OWN} 64"), "link 1 up", format!("start 1 {}", host(2)), format!("push 1 {} 3", host(2))];
        for time in times {
            lines.push(format!("{front} {time}{behind}"));
            lines.extend(lines!["cache", "slaac 1"]);
        }
        // The refused first, on a world of its own.
        lines.extend(lines![first, format!("{front} {}{behind}", LATEST + 1)]);
        cases.push(scene(format!("latest: {word}"), lines));
    }
    let mut lines = lines![new(), format!("address 1 {OWN} 64"), "link 1 up", format!("start 1 {}", host(2))];
    for (_, front, behind) in &calls {
        for time in [0, LATEST - 1, LATEST, LATEST + 1] {
            lines.push(format!("{front} {time}{behind}"));
        }
        lines.extend(state(&[1]));
    }
    cases.push(modelled("latest: from 0 to the latest", lines));
    cases.push(modelled(
        "latest: deadlines above the latest are not refused",
        lines![
            new(),
            format!("sweep 0 0 {}", u64::MAX),
            format!("sweep 0 {LATEST} {}", LATEST + 1),
            format!("poll 0 0 {} 16", u64::MAX),
            format!("start 0 {}", host(1)),
            format!("sweep 0 {LATEST} {}", u64::MAX),
            format!("sweep 0 {} {}", LATEST, LATEST + 1000),
            format!("sweep 0 {} 0", LATEST),
            format!("poll 0 {LATEST} {} 16", LATEST + 1),
        ],
    ));
    cases
}

/// Interfaces 3, 4 and 255, for each call that takes one.
pub fn interfaces_known() -> Vec<Scene> {
    let key = host(1);
    let fine = advert(0x80, 9, &[prefix(1, 9, 5), lladdr(&mac(1))]);
    let calls = [
        ("lookup", format!(" {key}")),
        ("start", format!(" {}", host(9))),
        ("fill", format!(" {} {} 5", host(9), mac(9))),
        ("insert", format!(" {} {} 5", host(9), mac(9))),
        ("get", format!(" {key}")),
        ("remove", format!(" {key}")),
        ("clear", String::new()),
        ("sweep", " 2000 -".into()),
        ("push", format!(" {key} 9")),
        ("release", format!(" {key}")),
        ("purge", String::new()),
        ("address", format!(" {key} 64")),
        ("route", format!(" {}", router(9))),
        ("link", " down".into()),
        ("restart", String::new()),
        ("on", String::new()),
        ("off", String::new()),
        ("ra", format!(" {} 5 {fine}", router(9))),
        ("poll", " 4000 - 16".into()),
        ("source", String::new()),
        ("routeto", format!(" {key} 64 {}", router(9))),
        ("slaac", String::new()),
        ("prefixes", String::new()),
        ("routers", String::new()),
        ("addresses", String::new()),
    ];
    let mut cases = Vec::new();
    for (word, rest) in calls {
        let mut lines = Vec::new();
        for iface in [0, 3] {
            lines.extend(lines![
                format!("address {iface} {OWN} 64"),
                format!("link {iface} up"),
                ra(iface, 1, 0, 9, &[prefix(1, 9, 5)]),
                format!("poll {iface} 0 - 16"),
                format!("start {iface} {key}"),
                format!("push {iface} {key} {iface}"),
            ]);
        }
        for iface in [4, 255, 3] {
            lines.push(format!("{word} {iface}{rest}"));
        }
        cases.push(scene(word, lines));
    }
    // A few calls to a file.
    let mut grouped = Vec::new();
    while !cases.is_empty() {
        let few: Vec<Scene> = cases.drain(..cases.len().min(5)).collect();
        let words: Vec<&str> = few.iter().map(|c| c.name.as_str()).collect();
        grouped.push(together(format!("interface: 4, 255 and 3 for {}", words.join(", ")), few));
    }
    grouped
}

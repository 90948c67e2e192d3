//! Tables full and one short of full, and the same keys on all four interfaces.

use super::*;

/// The lines that fill a cache, one for each place.
fn crowd(line: impl Fn(u64) -> String) -> Vec<String> {
    (0..CACHE).map(line).collect()
}

/// Full caches, one short of full, and one more.
pub fn full_cache() -> Vec<Scene> {
    let start = |n: u64| format!("start {} {}", n % 4, host(n));
    let insert = |n: u64, expires: u64| format!("insert {} {} {} {expires}", n % 4, host(n), mac(n));
    let mut cases = Vec::new();
    let whole: [(&str, Vec<String>); 4] = [
        ("started", crowd(|n| start(n))),
        ("incomplete, ties", joined(&[crowd(|n| start(n)), lines!["sweep 0 0 -"]])),
        ("reachable, ties", crowd(|n| insert(n, 500))),
        ("stale", joined(&[crowd(|n| insert(n, 0)), lines!["sweep 0 0 -"]])),
    ];
    // The one more comes by each call that puts an entry.
    let more = |i: usize| match i % 4 {
        0 => format!("start 1 {}", host(99)),
        1 => format!("insert 2 {} {} 9000", host(99), mac(99)),
        2 => format!("fill 3 {} {} 9000", host(99), mac(99)),
        _ => ra(0, 99, 9000, 0, &[lladdr(&mac(99))]),
    };
    for (i, (name, fill)) in whole.into_iter().enumerate() {
        let lines = joined(&[fill, lines!["cache", more(i), "cache", format!("start 0 {}", host(98))]]);
        cases.push(scene(format!("full: cache, {name}"), lines));
    }
    // One entry is not like the others, in the first, a middle or the last place.
    let others = |place: u64| -> Vec<String> { (0..CACHE).filter(|n| *n != place).map(start).collect() };
    let one_started =
        |place: u64| joined(&[crowd(|n| if n == place { start(n) } else { insert(n, 500) }), lines!["sweep 0 0 -"], others(place)]);
    let one_like = |kind: usize, place: u64| match kind {
        0 => crowd(|n| insert(n, if n == place { 499 } else { 500 + n })),
        1 => joined(&[one_started(place), lines!["sweep 0 1 -"]]),
        2 => joined(&[crowd(|n| insert(n, if n == place { 0 } else { 500 })), lines!["sweep 0 0 -"]]),
        3 => crowd(|n| if n == place { insert(n, 500) } else { start(n) }),
        4 => one_started(place),
        _ => joined(&[crowd(|n| start(n)), lines!["sweep 0 0 -", start(place)]]),
    };
    let names = [
        "the earliest of the reachable",
        "the earliest of the incomplete",
        "one stale among reachable",
        "one reachable among started",
        "one incomplete among started",
        "one started among incomplete",
    ];
    for (kind, name) in names.iter().enumerate() {
        let mut lines = Vec::new();
        for (i, place) in [0, 7, CACHE - 1].into_iter().enumerate() {
            lines.extend(joined(&[lines![new()], one_like(kind, place), lines!["cache", more(kind + i), "cache"]]));
        }
        cases.push(scene(format!("full: cache, {name}: first, middle, last"), lines));
    }
    // 15, 16, 17, with the table shown at each.
    let mut lines = crowd(|n| insert(n, 500));
    lines.insert(CACHE as usize - 1, "cache".into());
    lines.extend(lines!["cache", "neighbors", insert(16, 600), "neighbors"]);
    cases.push(scene("full: cache of 15, 16 and one more", lines));
    // Four of each kind, mixed; what goes, one after the other.
    let mut lines = Vec::new();
    for n in 0..CACHE {
        lines.push(match n % 4 {
            0 => insert(n, 0),
            1 => insert(n, 900 - n),
            _ => start(n),
        });
    }
    lines.push("sweep 0 0 -".into());
    lines.extend((0..CACHE).filter(|n| n % 4 == 3).map(start));
    for n in 0..CACHE + 1 {
        lines.push(format!("start 0 {}", host(100 + n)));
        lines.push("cache".into());
    }
    cases.push(scene("full: cache of all kinds, in the order in which they go", lines));
    // Known keys of a full table: nothing goes.
    let mut lines = crowd(|n| if n % 2 == 0 { start(n) } else { insert(n, 500 + n % 3) });
    lines.extend(lines!["sweep 0 501 -", start(4), start(1), insert(3, 900), insert(2, 900), format!("fill 0 {} {} 9", host(8), mac(8))]);
    cases.push(scene("full: cache, known keys", lines));
    // Remove, at each count that matters, from the first, a middle and the last place.
    let mut lines = Vec::new();
    for count in [1, 2, 3, 15, 16] {
        for place in [0, count / 2, count - 1] {
            lines.push(new());
            lines.extend((0..count).map(|n| insert(n, 500 + n)));
            lines.extend(lines![format!("remove {} {}", place % 4, host(place)), "cache", format!("remove {} {}", place % 4, host(place))]);
        }
    }
    cases.push(scene("full: cache of 1 to 16, remove first, middle, last", lines));
    let mut lines = crowd(|n| insert(n, 500 + n));
    lines.extend(lines!["clear 1", "cache", "clear 3", "cache", "clear 0", "cache", "clear 2", "cache", "clear 0"]);
    cases.push(scene("full: cache, clear of each interface", lines));
    let mut lines = crowd(|n| format!("start {} {}", u64::from(n == 3), host(n)));
    lines.extend(lines!["clear 1", "cache", "clear 0"]);
    cases.push(scene("full: cache, clear of one and of fifteen", lines));
    // All sixteen fail in one sweep; then with some that do not.
    let mut lines = crowd(|n| format!("start 0 {}", host(n)));
    lines.extend(lines!["sweep 0 0 -", "sweep 0 1000 -", "cache", "sweep 0 2000 -", "cache", "sweep 0 3000 -"]);
    cases.push(scene("full: cache, sixteen retransmit and fail in one sweep", lines));
    let mut parts = Vec::new();
    for place in [0, 7, 15] {
        let mut lines = crowd(|n| if n == place { format!("start 0 {}", host(n)) } else { insert(n, 90_000) });
        lines.extend(lines!["sweep 0 0 -", "sweep 0 1000 -", "sweep 0 2000 -", "sweep 0 3000 -"]);
        parts.push(scene("", lines));
    }
    cases.push(together("full: cache, the first, a middle, the last entry fails", parts));
    // The last moves in, is due and fails or retransmits too.
    let mut lines =
        lines![format!("start 0 {}", host(1)), "sweep 0 0 -", "sweep 0 1000 -", format!("start 0 {}", host(2)), "sweep 0 1000 -"];
    lines.extend(lines!["sweep 0 2000 -", "cache", "sweep 0 3000 -", "cache"]);
    lines.extend(lines![
        new(),
        format!("start 0 {}", host(1)),
        "sweep 0 0 -",
        format!("start 0 {}", host(2)),
        "sweep 0 1 -",
        "sweep 0 1000 -"
    ]);
    lines.extend(lines![
        format!("insert 0 {} {} 9000", host(3), mac(3)),
        format!("start 0 {}", host(4)),
        "sweep 0 2001 -",
        "cache",
        "sweep 0 3001 -"
    ]);
    lines.extend(lines!["cache", "sweep 0 4001 -"]);
    cases.push(scene("full: cache, failures with the last moved in", lines));
    // A failure behind a retransmission, in table order.
    cases.push(scene(
        "full: cache, a retransmission in front of a failure",
        lines![
            format!("insert 0 {} {} 9000", host(1), mac(1)),
            format!("start 0 {}", host(2)),
            "sweep 0 0 -",
            "sweep 0 1000 -",
            format!("start 0 {}", host(1)),
            "sweep 0 2000 -",
            "sweep 0 3000 -",
            "cache",
        ],
    ));
    cases
}

/// The queue at 7, 8 and 9, and packets taken from each place.
pub fn full_queue() -> Vec<Scene> {
    // Each packet has a key of its own.
    let push = |n: u64| format!("push {} {} {}", n % 4, host(n), 100 + n);
    let mut cases = Vec::new();
    let mut lines: Vec<String> = (0..QUEUE - 1).map(push).collect();
    lines.push("queue".into());
    for n in QUEUE - 1..2 * QUEUE + 1 {
        lines.extend(lines![push(n), "queue"]);
    }
    cases.push(scene("full: queue of 7, 8, 9 and on", lines));
    cases.push(scene("full: queue, one key alone", (0..QUEUE + 2).map(|n| format!("push 2 {} {n}", host(1))).collect()));
    let (mut released, mut purged, mut orphaned) = (Vec::new(), Vec::new(), Vec::new());
    for count in [1, 2, 3, 7, 8, 9] {
        for place in [0, count / 2, count - 1] {
            released.push(new());
            released.extend((0..count).map(push));
            released.extend(lines![format!("release {} {}", place % 4, host(place)), "queue"]);
            // One packet is of another interface than the rest, or the rest is; likewise for neighbours that are known.
            for (one, rest) in [(1, 0), (0, 1)] {
                purged.push(new());
                purged.extend((0..count).map(|n| format!("push {} {} {n}", if n == place { one } else { rest }, host(1))));
                purged.extend(lines!["purge 1", "queue"]);
                orphaned.push(new());
                let known = |n: u64| (n == place) == (one == 0);
                orphaned.extend((0..count).filter(|n| known(*n)).map(|n| format!("start 3 {}", host(n))));
                orphaned.extend((0..count).map(|n| format!("push 3 {} {n}", host(n))));
                orphaned.extend(lines!["orphans", "queue"]);
            }
        }
    }
    cases.push(scene("full: queue of 1 to 9, release first, middle, last", released));
    cases.push(scene("full: queue of 1 to 9, purge of one and of all but one", purged));
    cases.push(scene("full: queue of 1 to 9, orphans: one and all but one", orphaned));
    let all: Vec<String> = (0..QUEUE).map(|n| format!("push 0 {} {n}", host(n))).collect();
    cases.push(scene("full: queue, all purged", joined(&[all.clone(), lines!["purge 0", "queue"]])));
    cases.push(scene(
        "full: queue, all orphans",
        joined(&[all.clone(), lines!["orphans", "queue"], all, lines!["release 0 20010db8000000010000000000000000"]]),
    ));
    cases.push(scene(
        "full: queue, release of the oldest of a key at each count",
        joined(&[
            (0..QUEUE).map(|n| format!("push 0 {} {}", host(1 + n % 2), 10 + n)).collect(),
            (0..QUEUE + 1).flat_map(|n| lines![format!("release 0 {}", host(1 + n % 2)), "queue"]).collect(),
        ]),
    ));
    cases
}

/// Addresses, routes, prefixes and routers at their counts.
pub fn full_slaac() -> Vec<Scene> {
    let address = |n: u64| format!("address 0 {} 64", host(n));
    let route = |n: u64| format!("route {} {}", n % 4, router(n));
    let mut cases = Vec::new();
    let mut lines: Vec<String> = (0..ADDRESSES - 1).map(address).collect();
    for n in ADDRESSES - 1..ADDRESSES + 2 {
        lines.extend(lines!["addresses 0", address(n)]);
    }
    lines.extend(lines![format!("address 1 {} 64", host(0)), format!("address 0 {} 129", host(99)), format!("address 0 {} 64", host(3))]);
    cases.push(scene("full: application's addresses", lines));
    let mut parts = Vec::new();
    for count in [4, 5, 6, 7, 8] {
        let four: Vec<String> = (1..=PREFIXES).map(|n| prefix(n, 9, 5)).collect();
        let mut lines: Vec<String> = (0..count).map(address).collect();
        lines.extend(lines![ra(0, 1, 0, 9, &four), "poll 0 0 - 16", "addresses 0", address(99), "poll 0 9000 - 16"]);
        parts.push(scene("", lines));
    }
    cases.push(together("full: four prefixes beside 4 to 8 addresses", parts));
    // Room comes when an address goes; a later sync appends.
    let mut lines: Vec<String> = (0..ADDRESSES - 1).map(address).collect();
    lines.extend(lines![
        ra(0, 1, 0, 9, &[prefix(1, 2, 1), prefix(2, 9, 9)]),
        "poll 0 0 - 16",
        "addresses 0",
        "poll 0 2000 - 16",
        "addresses 0"
    ]);
    lines.extend(lines![ra(0, 1, 3000, 0, &[prefix(1, 9, 9), prefix(2, 9, 9)]), "poll 0 3000 - 16"]);
    cases.push(scene("full: addresses, room for one that had none", lines));
    // Which of the prefixes ends.
    let mut parts = Vec::new();
    for count in [1, 2, 3, 4] {
        let mut lines = Vec::new();
        for place in [1, count / 2 + 1, count] {
            lines.push(new());
            let options: Vec<String> = (1..=count).map(|n| if n == place { prefix(n, 1, 1) } else { prefix(n, 9, 1) }).collect();
            lines.extend(lines![
                ra(0, 1, 0, 9, &options),
                "poll 0 0 - 16",
                address(7),
                "poll 0 999 - 16",
                "poll 0 1000 - 16",
                "prefixes 0",
                "addresses 0"
            ]);
        }
        parts.push(scene("", lines));
    }
    cases.push(together("full: of 1 to 4 prefixes the first, middle, last ends", parts));
    let mut parts = Vec::new();
    for count in [3, 4, 5] {
        let options: Vec<String> = (1..=count).map(|n| prefix(n, 9, 5)).collect();
        let mut lines = lines![ra(0, 1, 0, 0, &options), "prefixes 0", "poll 0 0 - 16", "slaac 0"];
        // One more, then a known one, then one that ends.
        lines.extend(lines![
            ra(0, 1, 10, 0, &[prefix(9, 9, 5)]),
            "slaac 0",
            "prefixes 0",
            ra(0, 1, 20, 0, &[prefix(2, 8, 4)]),
            "slaac 0",
            "poll 0 20 - 16"
        ]);
        lines.extend(lines![ra(0, 1, 30, 0, &[prefix(3, 0, 0), prefix(9, 9, 9)]), "slaac 0", "prefixes 0", "poll 0 30 - 16", "prefixes 0"]);
        lines.extend(lines![ra(0, 1, 40, 0, &[prefix(9, 9, 9)]), "poll 0 40 - 16"]);
        parts.push(scene("", lines));
    }
    cases.push(together("full: 3, 4 and 5 prefixes in one message, and one more", parts));
    let (mut more, mut ending) = (Vec::new(), Vec::new());
    for count in [1, 2, 3] {
        let mut lines: Vec<String> = (1..=count).map(|n| ra(0, n, 0, 9 * n as u16, &[])).collect();
        lines.extend(lines![
            "routers 0",
            "slaac 0",
            "poll 0 0 - 16",
            ra(0, 9, 10, 9, &[]),
            "slaac 0",
            "routers 0",
            ra(0, 1, 20, 5, &[]),
            "slaac 0"
        ]);
        lines.extend(lines![
            "poll 0 20 - 16",
            "routes",
            ra(0, 1, 30, 0, &[]),
            "slaac 0",
            "routers 0",
            "poll 0 30 - 16",
            "routes",
            ra(0, 9, 40, 9, &[])
        ]);
        lines.push("poll 0 40 - 16".into());
        more.push(scene("", lines));
        ending.push(scene(
            "",
            joined(&[
                (1..=count).map(|n| ra(0, n, 0, 4 - n as u16, &[])).collect(),
                lines!["poll 0 0 - 16", "poll 0 1999 - 16", "poll 0 2000 - 16", "routers 0", "routes", "poll 0 3000 - 16"],
            ]),
        ));
    }
    cases.push(together("full: 1, 2 and 3 routers, and one more", more));
    cases.push(together("full: 1, 2 and 3 routers that end one by one", ending));
    // The application's routes, then SLAAC's into what room is left.
    let mut lines: Vec<String> = (1..ROUTES).map(route).collect();
    for n in ROUTES..ROUTES + 3 {
        lines.extend(lines!["routes", route(n)]);
    }
    lines.extend(lines![route(3), format!("route 2 {}", router(3)), "routes"]);
    cases.push(scene("full: application's routes", lines));
    let mut parts = Vec::new();
    for count in [5, 6, 7, 8] {
        let mut lines: Vec<String> = (1..=count).map(route).collect();
        for iface in [0, 2] {
            lines.extend(lines![ra(iface, 1, 0, 9, &[]), ra(iface, 2, 0, 5, &[]), format!("poll {iface} 0 - 16"), "routes"]);
        }
        lines.extend(lines![route(99), "poll 0 5000 - 16", "routes", route(98), "poll 2 9000 - 16", "routes", "poll 0 9000 - 16"]);
        parts.push(scene("", lines));
    }
    cases.push(together("full: SLAAC's routes of two interfaces beside 5 to 8", parts));
    // All eight of SLAAC: two on each interface.
    let mut lines = Vec::new();
    for iface in 0..4 {
        lines.extend(lines![ra(iface, 1, 0, 9, &[]), ra(iface, 2, 0, 9, &[]), format!("poll {iface} 0 - 16")]);
    }
    lines.extend(lines![
        "routes",
        route(1),
        ra(1, 1, 10, 0, &[]),
        "poll 1 10 - 16",
        "routes",
        "off 0",
        "routes",
        "off 3",
        "routes",
        route(1),
        "poll 2 9000 - 16"
    ]);
    cases.push(scene("full: routes, eight of SLAAC", lines));
    let mut parts = Vec::new();
    for place in [0, 3, 7] {
        let mut lines: Vec<String> = (0..place).map(|n| format!("route {} {}", n % 4, router(20 + n))).collect();
        lines.extend(lines![ra(2, 1, 0, 3, &[]), "poll 2 0 - 16"]);
        lines.extend((place..ROUTES - 1).map(|n| format!("route {} {}", n % 4, router(20 + n))));
        lines.extend(lines![
            "routes",
            format!("route 0 {}", router(1)),
            "poll 2 2999 - 16",
            "poll 2 3000 - 16",
            "routes",
            format!("route 2 {}", router(1))
        ]);
        parts.push(scene("", lines));
    }
    cases.push(together("full: routes, SLAAC's in the first, a middle, the last place ends", parts));
    cases
}

/// The same keys on all four interfaces; a call of one leaves the others'.
pub fn one_of_four() -> Vec<Scene> {
    let mut furniture = Vec::new();
    for iface in 0..4 {
        furniture.extend(lines![
            format!("address {iface} {OWN} 64"),
            format!("route {iface} {}", router(3)),
            format!("link {iface} up"),
            ra(iface, 1, 0, 9, &[prefix(1, 9, 5), lladdr(&mac(iface))]),
            format!("poll {iface} 0 - 16"),
            format!("start {iface} {}", host(1)),
            format!("push {iface} {} {iface}", host(1)),
            format!("push {iface} {} {iface}", router(1)),
        ]);
    }
    furniture.push("sweep 0 0 -".into());
    let next = advert(0x80, 4, &[prefix(1, 7, 4), lladdr(&mac(9))]);
    let calls: Vec<(&str, String)> = vec![
        ("lookup", format!(" {}", router(1))),
        ("get", format!(" {}", router(1))),
        ("remove", format!(" {}", host(1))),
        ("start", format!(" {}", router(1))),
        ("fill", format!(" {} {} 77", host(1), mac(7))),
        ("insert", format!(" {} {} 77", host(1), mac(7))),
        ("clear", String::new()),
        ("sweep", " 1000 -".into()),
        ("release", format!(" {}", host(1))),
        ("push", format!(" {} 99", host(1))),
        ("purge", String::new()),
        ("address", format!(" {} 64", host(7))),
        ("route", format!(" {}", router(7))),
        ("link", " down".into()),
        ("restart", String::new()),
        ("off", String::new()),
        ("ra", format!(" {} 4000 {next}", router(1))),
        ("poll", " 9000 - 16".into()),
    ];
    let mut cases = Vec::new();
    for (i, (word, rest)) in calls.into_iter().enumerate() {
        let mut lines = furniture.clone();
        // Two of the interfaces, others in turn; the whole state behind the first.
        let first = (i as u64 + 1) % 4;
        lines.push(format!("{word} {first}{rest}"));
        lines.extend(state(&[0, 1, 2, 3]));
        lines.push(format!("{word} {}{rest}", (first + 2) % 4));
        cases.push(scene(format!("interfaces: {word} of one of four"), lines));
    }
    let mut lines = furniture.clone();
    for iface in [3, 1, 0, 2] {
        lines.extend(lines![format!("off {iface}"), "cache", "queue", "routes"]);
    }
    lines.extend(lines!["on 1", "slaac 0", "slaac 1"]);
    cases.push(scene("interfaces: off of each, on of one", lines));
    let mut lines = Vec::new();
    for iface in 0..4 {
        lines.extend(lines![format!("start {iface} {}", host(1)), format!("push {iface} {} {}", host(1), 10 + iface)]);
    }
    lines.extend(lines![
        "sweep 2 0 -",
        "sweep 1 1000 -",
        "sweep 2 1000 -",
        "sweep 2 2000 -",
        "cache",
        "sweep 2 3000 -",
        "cache",
        "orphans",
        "queue",
        "sweep 0 9000 -"
    ]);
    lines.extend(lines!["sweep 3 9000 -", "sweep 1 9000 -", "cache"]);
    cases.push(scene("interfaces: probes of one key on all four", lines));
    cases.push(scene(
        "interfaces: a prefix and a router of one ends, the others' stay",
        joined(&[
            (0..4).flat_map(|i| lines![ra(i, 1, 0, 5 + i as u16, &[prefix(1, 5 + i as u32, 1)]), format!("poll {i} 0 - 16")]).collect(),
            lines!["poll 0 5000 - 16", "routes", "addresses 0", "addresses 1", "poll 3 6000 - 16", "routes", "poll 1 6000 - 16"],
        ]),
    ));
    cases
}

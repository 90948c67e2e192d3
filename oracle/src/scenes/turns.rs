//! Turns of a card's main loop.

use super::*;

/// An address and the link up: polls solicit.
fn up() -> Vec<String> {
    lines![format!("address 0 {OWN} 64"), "link 0 up"]
}

fn packet(now: u64, n: u64, handle: u64) -> String {
    format!("turn 16 {now} packet {} {handle}", host(n))
}

fn answer(now: u64, n: u64) -> String {
    format!("turn 16 {now} answer {} {}", host(n), mac(n))
}

fn heard(now: u64, source: u64, lifetime: u16, options: &[String]) -> String {
    format!("turn 16 {now} advert {} {}", router(source), advert(0, lifetime, options))
}

pub fn turns() -> Vec<Scene> {
    let mut cases = vec![
        scene(
            "turn: timer and link",
            joined(&[
                lines!["turn 16 0 timer", "turn 16 0 linkup", "link 0 up", "turn 16 0 timer"],
                lines![
                    format!("address 0 {OWN} 64"),
                    "turn 16 0 timer",
                    "slaac 0",
                    "turn 16 3999 timer",
                    "turn 16 4000 timer",
                    "turn 16 8000 timer"
                ],
                lines![
                    "turn 16 12000 timer",
                    "slaac 0",
                    "turn 16 12000 linkup",
                    "slaac 0",
                    "link 0 down",
                    "turn 16 16000 linkup",
                    "slaac 0",
                    "turn 16 16000 timer"
                ],
                lines!["off 0", "turn 16 17000 timer", "turn 16 17000 linkup", "on 0", "link 0 up", "turn 16 17000 timer"],
            ]),
        ),
        scene(
            "turn: room in the buffer",
            [0, 1, 15, 16, 17, 2_047, 2_048, 2_049, u64::MAX]
                .iter()
                .flat_map(|room| {
                    joined(&[lines![new()], up(), lines![format!("turn {room} 5 timer"), "slaac 0", format!("turn {room} 6 timer")]])
                })
                .collect(),
        ),
        scene(
            "turn: packets",
            lines![
                packet(0, 1, 11),
                "cache",
                packet(0, 1, 12),
                packet(1, 2, 21),
                "queue",
                format!("turn 16 1 packet {ALL_NODES} 31"),
                format!("turn 16 1 packet {UNSPECIFIED} 32"),
                format!("fill 0 {} {} 2", host(3), mac(3)),
                packet(2, 3, 33),
                packet(2, 3, 4_294_967_295),
                "queue",
                // Reachable past its time: sent, and then Stale; the next is solicited.
                packet(60_002, 3, 34),
                packet(60_002, 3, 35),
                "cache",
                "queue",
            ],
        ),
        scene(
            "turn: packets to a full queue",
            joined(&[
                (1..=QUEUE).map(|n| packet(0, n, n)).collect(),
                // The oldest goes, for a neighbour that is looked for and for one that is not.
                lines![
                    "queue",
                    packet(0, 1, 9),
                    "queue",
                    packet(0, 99, 10),
                    "queue",
                    packet(0, 99, 11),
                    format!("turn 16 0 packet {ALL_NODES} 12"),
                    "queue"
                ],
            ]),
        ),
        scene(
            "turn: answers",
            lines![
                answer(0, 1),
                "cache",
                packet(0, 1, 11),
                packet(0, 2, 21),
                packet(0, 1, 12),
                packet(0, 1, 13),
                format!("turn 16 5 answer {} {GROUP_MAC}", host(1)),
                format!("turn 16 5 answer {ALL_NODES} {}", mac(1)),
                format!("turn 16 5 answer {UNSPECIFIED} {GROUP_MAC}"),
                format!("turn 16 5 answer {} {GROUP_MAC}", host(9)),
                "queue",
                answer(5, 1),
                "queue",
                answer(6, 1),
                answer(7, 2),
                answer(8, 3),
                "cache",
                // Stale: neither known nor looked for.
                "turn 16 60007 timer",
                answer(60_007, 1),
                "cache",
            ],
        ),
        scene(
            "turn: advertisements",
            lines![
                heard(0, 1, 9, &[prefix(1, 9, 5)]),
                "addresses 0",
                heard(1, 1, 9, &[lladdr(GROUP_MAC)]),
                heard(2, 1, 9, &[lladdr(&mac(1))]),
                heard(3, 1, 9, &[]),
                // Refused, with its router known and not.
                format!("turn 16 4 advert {} 86", router(1)),
                format!("turn 16 4 advert {} -", router(2)),
                format!("turn 16 4 advert {} {}", host(1), advert(0, 9, &[])),
                format!("{}00", heard(4, 1, 9, &[])),
                format!("{}00", heard(4, 2, 9, &[])),
                format!("fill 0 {} {} 4", host(1), mac(7)),
                format!("turn 16 4 advert {} {}", host(1), advert(0, 9, &[])),
                format!("turn 16 4 advert {ALL_NODES} {}", advert(0, 9, &[])),
                heard(5, 2, 9, &[]),
                "off 0",
                heard(6, 1, 9, &[]),
                heard(6, 3, 9, &[]),
                "link 0 up",
                heard(7, 3, 9, &[]),
            ],
        ),
        scene(
            "turn: packets that wait for a router",
            lines![
                format!("turn 16 0 packet {} 1", router(1)),
                format!("turn 16 0 packet {} 2", router(1)),
                packet(0, 1, 3),
                heard(1, 1, 9, &[]),
                "queue",
                heard(2, 2, 9, &[lladdr(&mac(2))]),
                "queue",
                heard(3, 1, 9, &[lladdr(&mac(1))]),
                "queue",
                // A router that was known, a refused advertisement: what waits goes all the same.
                format!("push 0 {} 4", router(1)),
                format!("{}00", heard(4, 1, 9, &[])),
                format!("push 0 {} 5", router(1)),
                "off 0",
                heard(5, 1, 9, &[]),
            ],
        ),
        scene(
            "turn: probes and the failure, with what waited",
            joined(&[
                lines![packet(0, 1, 1), packet(0, 1, 2), packet(500, 2, 3)],
                [999, 1_000, 1_499, 1_500, 2_000, 2_500, 2_999, 3_000, 3_500, 4_000]
                    .iter()
                    .flat_map(|t| lines![format!("turn 16 {t} timer"), "cache", "queue"])
                    .collect(),
            ]),
        ),
        // A retransmission sets a time that only the second sweep sees; a second packet does not begin the probes anew.
        scene(
            "turn: one neighbour, woken at each deadline",
            joined(&[
                lines![packet(0, 1, 1), packet(300, 1, 2), "cache"],
                [999, 1_000, 2_000, 3_000, 4_000].iter().flat_map(|t| lines![format!("turn 16 {t} timer"), "cache"]).collect(),
            ]),
        ),
        scene(
            "turn: packets without a neighbour come back",
            lines![
                packet(0, 1, 1),
                packet(0, 2, 2),
                packet(0, 3, 3),
                format!("remove 0 {}", host(2)),
                "turn 16 1 timer",
                "clear 0",
                packet(2, 4, 4),
                "queue",
                format!("push 0 {} 9", host(9)),
                format!("push 3 {} 8", host(4)),
                format!("start 2 {}", host(4)),
                format!("push 2 {} 7", host(4)),
                "turn 16 3 linkup",
                "queue",
            ],
        ),
        scene(
            "turn: a packet that drives an entry out",
            joined(&[
                lines![packet(0, 1, 1)],
                (2..=CACHE).map(|n| format!("fill 0 {} {} {n}", host(n), mac(n))).collect(),
                lines![packet(1, 99, 2), "cache", "queue"],
                (2..=CACHE).map(|n| format!("start 0 {}", host(n))).collect(),
                lines![packet(2, 98, 3), "cache", "queue"],
            ]),
        ),
        scene(
            "turn: what wakes the card",
            joined(&[
                up(),
                lines![
                    format!("fill 0 {} {} 0", host(1), mac(1)),
                    "turn 16 0 timer",
                    "restart 0",
                    heard(1, 1, 3, &[prefix(1, 5, 1)]),
                    "turn 16 2 timer",
                    packet(3, 2, 1)
                ],
                lines![
                    "turn 16 1003 timer",
                    "turn 16 3001 timer",
                    "turn 16 4001 timer",
                    "turn 16 5001 timer",
                    "turn 16 9000 timer",
                    "turn 16 60000 timer"
                ],
            ]),
        ),
        scene(
            "turn: other interfaces' neighbours",
            lines![
                format!("start 1 {}", host(1)),
                format!("push 1 {} 1", host(1)),
                format!("insert 2 {} {} 700", host(1), mac(1)),
                format!("push 2 {} 2", host(1)),
                packet(0, 1, 3),
                "turn 16 700 timer",
                "cache",
                "turn 16 1000 timer",
                "cache",
                "turn 16 9000 timer",
                "slaac 1",
                "sweep 1 9000 -",
            ],
        ),
        scene(
            "turn: the held clock stays",
            lines![
                "clock 5 9",
                packet(0, 1, 1),
                "now",
                "schedule 100",
                "run 16 4 - 50 timer 60 linkup",
                "now",
                "schedule 100",
                format!("turn 16 {} timer", LATEST + 1),
                "now"
            ],
        ),
    ];
    let first = format!("new 020000000001 {LATEST}");
    let late = LATEST + 1;
    let mut lines = joined(&[lines![first], up(), lines![packet(LATEST, 1, 1)]]);
    lines.extend(lines![
        format!("turn 16 {late} timer"),
        format!("turn 16 {late} linkup"),
        heard(late, 1, 9, &[lladdr(&mac(1))]),
        answer(late, 1),
        packet(late, 1, 2),
        packet(u64::MAX, 3, 3),
        // 3 before 2 and 5.
        format!("turn 16 {late} packet {ALL_NODES} 4"),
        format!("turn 16 {late} answer {ALL_NODES} {GROUP_MAC}"),
        format!("turn 16 {late} advert {ALL_NODES} -"),
        format!("turn 0 {late} timer"),
        "cache",
        "queue",
        format!("turn 16 {LATEST} timer"),
        answer(LATEST, 1),
        heard(LATEST, 1, 65_535, &[prefix(1, 1_000_000, 1_000_000), lladdr(&mac(1))]),
    ]);
    cases.push(scene("latest: turn", lines));
    // Nothing is purged either.
    let lines = lines![
        format!("push 0 {} 7", host(0xc)),
        format!("turn 16 {} timer", LATEST + 1),
        "queue",
        format!("turn 16 {} timer", 0),
        "queue"
    ];
    cases.push(scene("latest: turn with a packet that nothing will release", lines));
    cases.push(modelled(
        "turn: infinite lifetimes",
        lines![
            heard(0, 1, 0, &[prefix(1, ALL_ONES, ALL_ONES), prefix(2, ALL_ONES, 5)]),
            "turn 16 0 timer",
            "turn 16 5000 timer",
            "addresses 0",
            heard(6_000, 1, 9, &[])
        ],
    ));
    cases.push(modelled(
        "turn: advertisements from what is link-local by ten bits, and times far apart",
        lines![
            format!("turn 16 0 packet febf0000000000000000000000000007 1"),
            format!("turn 16 1 advert febf0000000000000000000000000007 {}", advert(0, 9, &[lladdr(&mac(1))])),
            format!("turn 16 {LATEST} timer"),
            packet(LATEST, 1, 9),
            format!("turn 16 {} timer", LATEST + 1_000),
        ],
    ));
    cases.extend(runs());
    cases
}

fn runs() -> Vec<Scene> {
    let inputs = [
        format!("0 packet {} 1", host(1)),
        format!("1 packet {} 2", host(1)),
        format!("2 answer {} {}", host(1), mac(1)),
        format!("3 advert {} {}", router(1), advert(0, 9, &[prefix(1, 9, 5)])),
    ];
    let run = |room: u64, budget: u64, deadline: &str, count: usize| {
        format!("run {room} {budget} {deadline} {}", inputs[..count].join(" ")).trim_end().to_string()
    };
    let (mut cases, mut parts) = (Vec::new(), Vec::new());
    for count in 0..=inputs.len() {
        let mut lines = Vec::new();
        for (budget, deadline) in [(0, "-"), (0, "77"), (1, "77"), (2, "-"), (3, "-"), (4, "5"), (5, "-"), (u64::MAX, "77")] {
            lines.extend(joined(&[lines![new()], up(), lines![run(16, budget, deadline, count), "cache", "queue"]]));
        }
        parts.push(scene("", lines));
    }
    cases.push(together("run: 0 to 4 inputs, each budget", parts));
    cases.push(scene(
        "run: the buffer of several turns",
        joined(&[
            up(),
            // A solicitation in the first turn, none in the second; one in each; no room.
            lines![
                "run 16 4 - 0 timer 1 timer",
                "run 16 4 - 2 linkup 3 linkup",
                "run 17 4 - 4000 timer 8003 timer",
                "run 15 4 - 8004 linkup 8005 timer",
                "run 0 4 - 8006 linkup",
                "run 4096 4 - 8007 linkup"
            ],
        ]),
    ));
    cases.push(scene(
        "run: more than four inputs do not read",
        joined(&[
            up(),
            lines![
                format!("run 16 9 - {} 4 timer", inputs.join(" ")),
                format!("run 16 9 - {} 4", inputs.join(" ")),
                format!("run 16 0 - {} 4 timer 5 timer", inputs.join(" ")),
                "cache",
                "queue",
                "slaac 0"
            ],
        ]),
    ));
    cases.push(scene(
        "run: a time above the latest among others",
        joined(&[
            up(),
            lines![
                format!("run 16 4 9 0 packet {} 1 {} timer", host(1), LATEST + 1),
                format!("run 16 4 9 {} timer 5 packet {} 2", LATEST + 1, host(1)),
                format!("run 16 4 9 6 timer {} packet {} 3 7 timer", u64::MAX, host(1)),
            ],
        ]),
    ));
    cases.push(scene(
        "run: nothing comes",
        lines![
            "run 16 4 -",
            "run 16 4 0",
            "run 16 4 77",
            "run 0 0 18446744073709551615",
            "run 18446744073709551615 18446744073709551615 -"
        ],
    ));
    cases
}

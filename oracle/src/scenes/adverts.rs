//! What an advertisement leaves, and the poll behind it.

use super::*;

/// What an advertisement leaves, the poll behind it, and turning SLAAC off.
pub fn adverts() -> Vec<Scene> {
    let said =
        |now: u64, flags: u8, lifetime: u16, options: &[String]| format!("ra 0 {} {now} {}", router(1), advert(flags, lifetime, options));
    let up = lines![format!("address 0 {OWN} 64"), "link 0 up"];
    let mut cases = Vec::new();
    let mut lines = Vec::new();
    for flags in [0x00, 0x40, 0x80, 0xc0, 0x00, 0xc0, 0x3f, 0x7f, 0xbf, 0xff, 0x20, 0x08] {
        lines.extend(lines![said(0, flags, 9, &[]), "slaac 0"]);
    }
    cases.push(scene("advert: flags", lines));
    cases.push(scene(
        "advert: routers seen",
        joined(&[
            up.clone(),
            // Refused, with lifetime 0, then off and on again.
            lines![
                "slaac 0",
                format!("{}00", said(0, 0, 9, &[])),
                "slaac 0",
                said(0, 0, 0, &[]),
                "slaac 0",
                "slaac 1",
                "restart 0",
                "slaac 0"
            ],
            lines!["poll 0 0 - 16", "slaac 0", said(1, 0, 0, &[]), "slaac 0", "off 0", "on 0", "slaac 0"],
        ]),
    ));
    cases.push(scene(
        "advert: phases",
        joined(&[
            up.clone(),
            lines![said(0, 0, 9, &[]), "slaac 0", "poll 0 0 - 16", "slaac 0", said(1, 0, 9, &[]), "slaac 0", said(2, 0, 9, &[]), "slaac 0"],
            lines![
                "poll 0 4000 - 16",
                "poll 0 8000 - 16",
                "restart 0",
                "poll 0 8000 - 16",
                format!("{}00", said(8_001, 0, 9, &[])),
                "slaac 0"
            ],
        ]),
    ));
    let mut lines = Vec::new();
    for lifetime in [0, 1, 2, 255, 256, 65_535] {
        lines.extend(lines![new(), said(0, 0, lifetime, &[]), "routers 0", "slaac 0", "poll 0 0 - 16", "routes"]);
        let end = 1_000 * u64::from(lifetime);
        lines.extend(lines![format!("poll 0 {} - 16", end.max(1) - 1), "routes", format!("poll 0 {end} - 16"), "routes"]);
    }
    cases.push(scene("advert: router lifetimes", lines));
    cases.push(scene(
        "advert: a router's lifetime 0, then more",
        lines![
            said(0, 0, 9, &[]),
            "poll 0 0 - 16",
            said(10, 0, 0, &[]),
            "routers 0",
            "slaac 0",
            said(10, 0, 5, &[]),
            "routers 0",
            "poll 0 10 - 16",
            said(20, 0, 0, &[]),
            "poll 0 19 - 16",
            "routers 0",
            "routes",
            "poll 0 20 - 16",
        ],
    ));
    let mut lines = Vec::new();
    for (valid, preferred) in [(0, 0), (1, 0), (1, 1), (1, 2), (5, 4), (5, 5), (5, 6), (0, 1), (1_073_741, 1_073_741)] {
        lines.extend(lines![new(), said(0, 0, 0, &[prefix(1, valid, preferred)]), "prefixes 0", "slaac 0", "poll 0 0 - 16", "addresses 0"]);
        // The same for a prefix that is known.
        lines.extend(lines![
            said(9, 0, 0, &[prefix(2, 9, 9)]),
            "poll 0 9 - 16",
            said(10, 0, 0, &[prefix(2, valid, preferred)]),
            "prefixes 0",
            "slaac 0",
            "poll 0 10 - 16",
            "addresses 0"
        ]);
    }
    cases.push(scene("advert: prefix lifetimes", lines));
    let mut lines = Vec::new();
    for len in [0, 1, 63, 64, 65, 127, 128, 129, 192, 255] {
        lines.extend(lines![
            new(),
            said(0, 0, 0, &[prefix_of(1, len, BOTH, 9, 5)]),
            "prefixes 0",
            "slaac 0",
            "poll 0 0 - 16",
            "addresses 0"
        ]);
    }
    cases.push(modelled("advert: prefix lengths", lines));
    let mut lines = Vec::new();
    for flags in [0x00, ON_LINK, AUTONOMOUS, BOTH, 0x3f, 0x7f, 0xbf, 0xff] {
        lines.extend(lines![
            new(),
            said(0, 0, 0, &[prefix_of(1, 64, flags, 9, 5)]),
            "prefixes 0",
            "slaac 0",
            "poll 0 0 - 16",
            "addresses 0"
        ]);
    }
    cases.push(scene("advert: prefix flags", lines));
    let at = |addr: &str| format!("030440c0000000090000000500000000{addr}");
    let mut lines = Vec::new();
    for addr in [
        "fe800000000000000000000000000000",
        "fe800000000000000000000000000001",
        "ff020000000000000000000000000000",
        "ff000000000000000000000000000000",
        "feffffffffffffff0000000000000000",
        "fec00000000000000000000000000000",
        "fe7fffffffffffff0000000000000000",
        UNSPECIFIED,
        "20010db8000000010000000000000001",
        "20010db800000001ffffffffffffffff",
    ] {
        lines.extend(lines![new(), said(0, 0, 0, &[at(addr)]), "prefixes 0", "slaac 0", "poll 0 0 - 16", "addresses 0"]);
    }
    cases.push(modelled("advert: prefixes that are link-local, multicast, neither", lines));
    let mut lines = Vec::new();
    for addr in ["fe800000000000010000000000000000", "febfffffffffffff0000000000000000", "fe900000000000000000000000000000"] {
        lines.extend(lines![new(), said(0, 0, 0, &[at(addr)]), "prefixes 0", "poll 0 0 - 16", "addresses 0"]);
    }
    cases.push(modelled("advert: prefixes that are link-local by ten bits", lines));
    let mut lines = Vec::new();
    for addr in ["febf0000000000000000000000000007", "fe900000000000000000000000000007", "fe800000000000010000000000000007"] {
        lines.extend(lines![new(), format!("address 0 {addr} 64"), "link 0 up", "poll 0 0 - 16"]);
    }
    cases.push(modelled("advert: solicitations from addresses that are link-local by ten bits", lines));
    let mut lines = Vec::new();
    for source in ["febf0000000000000000000000000007", "fe800000000000010000000000000007", OWN, &router(0)] {
        lines.extend(lines![format!("ra 0 {source} 0 {}", advert(0, 9, &[lladdr(&mac(1))])), "routers 0"]);
    }
    cases.push(scene("advert: sources that are link-local", lines));
    // Prefixes match by the bits of their length, and the length.
    let twin = |low: u64, len: u8, valid: u32| format!("0304{len:02x}c0{valid:08x}{valid:08x}0000000020010db800000001{low:016x}");
    cases.push(modelled(
        "advert: prefixes that differ in their low bytes or their length",
        lines![
            said(0, 0, 0, &[twin(0, 64, 9), twin(1, 64, 8), twin(0, 63, 7), twin(0, 128, 6)]),
            "prefixes 0",
            "poll 0 0 - 16",
            "addresses 0",
            said(1, 0, 0, &[twin(1, 64, 0)]),
            "prefixes 0",
            "poll 0 1 - 16",
            "prefixes 0",
            "addresses 0",
        ],
    ));
    cases.push(scene(
        "advert: one prefix twice in a message",
        lines![
            said(0, 0, 0, &[prefix(1, 9, 5), prefix(1, 8, 4)]),
            "prefixes 0",
            said(1, 0, 0, &[prefix(1, 7, 4), prefix(1, 0, 0)]),
            "prefixes 0",
            said(2, 0, 0, &[prefix(1, 0, 0), prefix(1, 6, 4)]),
            "prefixes 0",
            "poll 0 2 - 16",
        ],
    ));
    // A malformed option behind good ones: nothing of them stays.
    let mut lines = Vec::new();
    let bad = [
        "01".to_string(),
        option_of(1, 1, 7),
        option_of(1, 0, 8),
        option_of(14, 0, 8),
        option_of(1, 2, 15),
        option_of(14, 2, 8),
        option_of(3, 3, 24),
        option_of(3, 1, 8),
        option_of(3, 4, 31),
        option_of(4, 5, 40),
        option_of(4, 6, 47),
    ];
    for option in &bad {
        lines.extend(lines![
            said(0, 0xc0, 9, &[prefix(1, 9, 5), lladdr(&mac(1)), option.clone()]),
            said(0, 0xc0, 9, &[option.clone(), prefix(1, 9, 5)])
        ]);
    }
    lines.extend(lines![
        "slaac 0",
        "prefixes 0",
        said(0, 0, 9, &[option_of(14, 1, 8), option_of(4, 6, 48), option_of(2, 1, 8), option_of(5, 1, 8), prefix(1, 9, 5)])
    ]);
    cases.push(scene("advert: malformed options, first and last", lines));
    let mut lines = Vec::new();
    for options in [
        vec![lladdr(GROUP_MAC)],
        vec![lladdr(&mac(1)), lladdr(GROUP_MAC)],
        vec![lladdr(GROUP_MAC), lladdr(&mac(2))],
        vec![lladdr(&mac(1)), lladdr(&mac(2))],
        vec!["0201020000000001".into()],
        vec![lladdr(&mac(1)), "0201020000000002".into()],
        vec!["010202000000000901020304050607ff".replacen("07ff", "0708", 1)],
        vec![lladdr("000000000000")],
        vec![],
    ] {
        lines.extend(lines![new(), said(5, 0, 0, &options), "cache"]);
    }
    cases.push(scene("advert: the source's link-layer address", lines));
    let mut lines = Vec::new();
    for known in [
        lines![format!("start 0 {}", router(1))],
        lines![format!("start 0 {}", router(1)), "sweep 0 0 -"],
        lines![format!("insert 0 {} {} 900", router(1), mac(9))],
        lines![format!("insert 0 {} {} 0", router(1), mac(9)), "sweep 0 0 -"],
    ] {
        lines.push(new());
        lines.extend(known);
        lines.extend(lines![
            format!("push 0 {} 5", router(1)),
            format!("lookup 0 {}", router(1)),
            said(7, 0, 9, &[lladdr(GROUP_MAC)]),
            "cache",
            said(7, 0, 9, &[lladdr(&mac(3))]),
            "cache"
        ]);
        lines.extend(lines![format!("lookup 0 {}", router(1)), "orphans", format!("release 0 {}", router(1))]);
    }
    cases.push(scene("advert: the source is a neighbour of each kind", lines));
    cases.push(scene(
        "advert: with SLAAC off",
        joined(&[
            up.clone(),
            lines![
                "off 0",
                said(0, 0xc0, 9, &[prefix(1, 9, 5), lladdr(&mac(1))]),
                "poll 0 0 - 16",
                "poll 0 0 5 16",
                "slaac 0",
                "on 0",
                "slaac 0"
            ],
            lines!["poll 0 0 - 16", said(1, 0xc0, 9, &[prefix(1, 9, 5), lladdr(&mac(1))]), "poll 0 1 - 16"],
        ]),
    ));
    let waiting = lines![
        format!("start 0 {}", host(1)),
        format!("insert 0 {} {} 900", host(2), mac(2)),
        format!("start 1 {}", host(1)),
        format!("push 0 {} 1", host(1)),
        format!("push 1 {} 2", host(1)),
        format!("push 0 {} 3", host(2)),
        format!("push 0 {} 4", host(9)),
        format!("route 0 {}", router(5)),
        format!("address 0 {} 64", host(7)),
    ];
    let learned = lines![said(0, 0, 9, &[prefix(1, 9, 5)]), ra(1, 1, 0, 9, &[prefix(1, 9, 5)]), "poll 0 0 - 16", "poll 1 0 - 16"];
    cases.push(scene(
        "advert: off with an address",
        joined(&[learned, waiting.clone(), lines!["off 0", "cache", "queue", "routes", "addresses 0", "on 0", "off 0"]]),
    ));
    cases.push(scene(
        "advert: off with a route alone",
        joined(&[lines![said(0, 0, 9, &[]), "poll 0 0 - 16"], waiting.clone(), lines!["off 0", "cache", "queue", "routes", "addresses 0"]]),
    ));
    cases.push(scene(
        "advert: off with a prefix that is not synced",
        joined(&[lines![said(0, 0, 9, &[prefix(1, 9, 5)])], waiting.clone(), lines!["off 0", "cache", "queue"]]),
    ));
    cases.push(scene(
        "advert: off with the application's address of a prefix",
        joined(&[
            lines![format!("address 0 {} 64", formed(1)), said(0, 0, 9, &[prefix(1, 9, 5)]), "poll 0 0 - 16"],
            waiting.clone(),
            lines!["off 0", "cache", "queue"],
        ]),
    ));
    cases.push(scene(
        "advert: an address that ends clears nothing",
        joined(&[
            lines![said(0, 0, 9, &[prefix(1, 1, 1)]), "poll 0 0 - 16"],
            waiting,
            lines!["poll 0 1000 - 16", "addresses 0", "cache", "queue"],
        ]),
    ));
    cases.push(scene(
        "advert: off with three addresses among the application's",
        joined(&[
            lines![
                format!("address 0 {} 64", host(1)),
                said(0, 0, 9, &[prefix(1, 9, 5), prefix(2, 9, 5)]),
                "poll 0 0 - 16",
                format!("address 0 {} 64", host(2))
            ],
            lines![said(0, 0, 9, &[prefix(3, 9, 5)]), "poll 0 0 - 16", format!("address 0 {} 64", host(3)), "addresses 0", "off 0"],
        ]),
    ));
    cases.push(scene(
        "advert: the application's address of a prefix stays",
        lines![
            format!("address 0 {} 64", formed(1)),
            format!("address 0 {} 128", formed(2)),
            said(0, 0, 0, &[prefix(1, 2, 1), prefix(2, 2, 1)]),
            "poll 0 0 - 16",
            "addresses 0",
            "poll 0 2000 - 16",
            "addresses 0",
            "off 0",
        ],
    ));
    let mut lines = Vec::new();
    for own in ["020000000001", "000000000001", "fdffffffffff", "010203040506", "a5a5a5a5a5a5"] {
        lines.extend(lines![
            format!("new {own} 0"),
            format!("address 0 {OWN} 64"),
            "link 0 up",
            said(0, 0, 0, &[prefix(1, 9, 5)]),
            "poll 0 0 - 16",
            "addresses 0"
        ]);
    }
    cases.push(scene("advert: addresses formed from several hardware addresses", lines));
    cases.push(scene(
        "advert: a sync that no one asked for, by the end of a router",
        lines![
            said(0, 0, 3, &[prefix(1, 9, 2)]),
            "poll 0 0 - 16",
            "poll 0 2999 - 16",
            "addresses 0",
            "slaac 0",
            "poll 0 3000 - 16",
            "addresses 0"
        ],
    ));
    cases.push(scene(
        "advert: refreshed, shortened, after its end",
        lines![
            said(0, 0, 9, &[prefix(1, 9, 5)]),
            "poll 0 0 - 16",
            said(1, 0, 2, &[prefix(1, 2, 1)]),
            "poll 0 1 - 16",
            "addresses 0",
            "routes",
            said(3_000, 0, 9, &[prefix(1, 9, 5)]),
            "prefixes 0",
            "routers 0",
            "poll 0 3000 - 16",
            "addresses 0",
            "routes",
        ],
    ));
    let mut lines = Vec::new();
    for (valid, preferred) in
        [(ALL_ONES, ALL_ONES), (ALL_ONES, 5), (ALL_ONES, 0), (ALL_ONES - 1, ALL_ONES - 1), (5, ALL_ONES), (0, ALL_ONES)]
    {
        lines.extend(lines![
            new(),
            said(0, 0, 0, &[prefix(1, valid, preferred)]),
            "prefixes 0",
            "poll 0 0 - 16",
            "poll 0 0 17 16",
            "addresses 0"
        ]);
        lines.extend(lines!["poll 0 5000 - 16", said(5_001, 0, 0, &[prefix(1, 9, 4)]), "poll 0 5001 - 16", "prefixes 0", "addresses 0"]);
        lines.extend(lines![
            said(5_002, 0, 0, &[prefix(1, ALL_ONES, ALL_ONES)]),
            "poll 0 5002 - 16",
            "prefixes 0",
            said(5_003, 0, 0, &[prefix(1, 0, 0)]),
            "poll 0 5003 - 16"
        ]);
    }
    cases.push(modelled("advert: infinite lifetimes", lines));
    cases.push(modelled(
        "advert: an infinite prefix beside one that ends",
        lines![
            said(0, 0, 3, &[prefix(1, 9, 5), prefix(2, ALL_ONES, ALL_ONES), prefix(3, ALL_ONES, 1), prefix(4, 2, 2)]),
            "poll 0 0 - 16",
            "poll 0 2000 - 16",
            "addresses 0",
            "poll 0 3000 - 16",
            "poll 0 9000 - 16",
            "prefixes 0",
            "addresses 0",
            format!("poll 0 {LATEST} - 16"),
            "off 0",
        ],
    ));
    cases.push(modelled(
        "advert: lifetimes above what the Rust holds",
        lines![
            said(0, 0, 65_535, &[prefix(1, 1_073_742, 1_073_742), prefix(2, 1 << 31, 4_294_968)]),
            "poll 0 0 - 16",
            "poll 0 1073741999 - 16",
            "poll 0 1073742000 - 16",
            "prefixes 0",
            "poll 0 4294968000000 - 16",
            "poll 0 2147483648000 - 16",
        ],
    ));
    cases
}

//! Calls that touch no table: the clock, addresses, hardware addresses, messages.

use super::*;

/// ff02::2.
const ALL_ROUTERS: &str = "ff020000000000000000000000000002";

/// The held clock.
pub fn clocks() -> Vec<Scene> {
    let mut cases = vec![
        scene(
            "clock: expired and scheduled",
            lines![
                "now",
                "expired 0",
                "expired 7",
                "expired 0",
                "expired 9",
                "expired 7",
                "expired 5",
                "expired 0",
                "schedule 6",
                "schedule 5",
                "schedule 4",
                "clock 10 -",
                "now",
                "expired 9",
                "expired 10",
                "expired 11",
                "clock 10 -",
                "schedule 11",
                "new 020000000001 77",
                "now",
                "expired 77",
                "expired 78",
            ],
        ),
        scene(
            "clock: a deadline that it has",
            ["-", "0", "9", "10", "11", "19", "20", "21"]
                .iter()
                .flat_map(|deadline| {
                    lines![format!("clock 10 {deadline}"), "expired 10", "expired 20", "now", format!("clock 10 {deadline}"), "schedule 20"]
                })
                .collect(),
        ),
        scene(
            "clock: left by sweeps and polls",
            lines![
                format!("start 0 {}", host(1)),
                "clock 5 6",
                "sweep 0 0 -",
                "now",
                "schedule 5000",
                "sweep 0 20 900",
                "now",
                "schedule 5000",
                "poll 0 30 800 16",
                "now",
                "schedule 5000",
                ra(0, 1, 30, 9, &[]),
                "now",
                "poll 0 40 - 16",
                "schedule 99000",
                "off 0",
                "poll 0 50 600 16",
                "now",
                "schedule 99000",
                // Refused: as it was made.
                "sweep 4 60 700",
                "now",
                "schedule 99000",
                "poll 4 70 - 16",
                "now",
                "schedule 99000",
                "poll 4 80 85 16",
                "expired 90",
                // A line that does not read, and calls that take a time and no clock.
                "sweep 0 90",
                "now",
                format!("fill 0 {} {} 95", host(2), mac(2)),
                format!("insert 0 {} {} 96", host(2), mac(2)),
                "now",
                "schedule 99000",
            ],
        ),
        modelled(
            "clock: a time that has come is scheduled",
            lines!["clock 10 -", "schedule 10", "expired 20", "clock 10 5", "schedule 7", "clock 10 7", "schedule 5", "schedule 0", "now"],
        ),
        modelled(
            "clock: times up to the last",
            lines![
                format!("clock {} -", u64::MAX),
                "now",
                format!("expired {}", u64::MAX),
                "expired 0",
                format!("clock 0 {}", u64::MAX),
                format!("expired {}", u64::MAX),
                format!("expired {}", u64::MAX - 1),
                format!("schedule {LATEST}"),
                format!("clock {LATEST} -"),
                format!("expired {LATEST}"),
                format!("expired {}", LATEST + 1),
                format!("sweep 0 {} 9", LATEST + 1),
                "now",
                format!("schedule {}", u64::MAX),
                format!("poll 0 {} - 16", u64::MAX),
                "now",
                format!("expired {}", u64::MAX),
            ],
        ),
    ];
    let times = [0, 1, (1 << 32) - 1, 1 << 32, LATEST, (1 << 63) - 1, 1 << 63, u64::MAX - 1, u64::MAX];
    let sums =
        times.iter().flat_map(|t| [0, 1, 1_000, 1 << 30, (1 << 30) + 1, 1 << 32, 1 << 63, u64::MAX].map(|ms| format!("add {t} {ms}")));
    cases.push(scene("clock: a length of time added", sums.collect()));
    cases
}

/// Addresses and messages by themselves.
pub fn values() -> Vec<Scene> {
    let kinds = [
        UNSPECIFIED,
        "00000000000000000000000000000001",
        "00000000000000000000000000000002",
        ALL_NODES,
        ALL_ROUTERS,
        "ff020000000000000000000000000003",
        "ff050000000000000000000000000002",
        "ff020000000000000000000100000002",
        "ff000000000000000000000000000000",
        "ffffffffffffffffffffffffffffffff",
        "feffffffffffffffffffffffffffffff",
        "fec00000000000000000000000000000",
        "fe7fffffffffffffffffffffffffffff",
        "7e800000000000000000000000000001",
        "fe800000000000000000000000000000",
        "fe800000000000000000000000000001",
        "fe80000000000000ffffffffffffffff",
        OWN,
        "20010db8000000010000000000000001",
        "80000000000000000000000000000000",
    ];
    let mut cases = vec![
        scene("values: kinds of address", kinds.iter().map(|addr| format!("kind {addr}")).collect()),
        modelled(
            "values: kinds of address, link-local by ten bits",
            [
                "fe800000000000010000000000000001",
                "fe810000000000000000000000000001",
                "fe900000000000000000000000000000",
                "febfffffffffffffffffffffffffffff",
            ]
            .iter()
            .map(|addr| format!("kind {addr}"))
            .collect(),
        ),
    ];
    let macs = [
        "000000000000",
        "010000000000",
        "020000000001",
        "030000000001",
        "fe0000000000",
        "ff0000000000",
        "fdffffffffff",
        "ffffffffffff",
        "0102030405ab",
        "a5a5a5a5a5a5",
    ];
    cases.push(scene("values: hardware addresses", macs.iter().map(|mac| format!("hardware {mac}")).collect()));
    let mut lines = Vec::new();
    for len in [0, 1, 62, 63, 64, 65, 127, 128, 129, 192, 255] {
        lines.push(format!("form {} {len} {}", host(0), mac(1)));
    }
    for prefix in [&host(0), &host(1), "20010db800000001ffffffffffffffff", UNSPECIFIED, ALL_NODES, "fe800000000000000000000000000000"] {
        lines.push(format!("form {prefix} 64 0102030405ab"));
    }
    lines.extend(macs.iter().map(|mac| format!("form {} 64 {mac}", host(0))));
    cases.push(scene("values: addresses formed", lines));
    let mut lines = lines![
        format!("formed {} {}", formed(1), mac(1)),
        format!("formed {} {}", formed(77), mac(1)),
        format!("formed {OWN} {}", mac(1)),
        format!("formed {} {}", formed(1), mac(2)),
        format!("formed {UNSPECIFIED} {}", mac(1))
    ];
    // One digit of the last eight bytes is another.
    for digit in 16..32 {
        let mut other = formed(1).into_bytes();
        other[digit] = if other[digit] == b'0' { b'1' } else { b'0' };
        lines.push(format!("formed {} {}", String::from_utf8(other).unwrap(), mac(1)));
    }
    lines.push(format!("formed {} {}", formed(1), "000000000001"));
    lines.push(format!("formed 20010db800000001020000fffe000001 {}", "000000000001"));
    cases.push(scene("values: whether an address is formed of a hardware address", lines));
    // Every byte counts.
    let mut lines = vec![format!("same {} {}", mac(1), mac(1)), "same 0200000000FF 0200000000ff".to_string()];
    for other in ["030000000001", "020100000001", "020001000001", "020000010001", "020000000101", "020000000002", "000000000000"] {
        lines.push(format!("same 020000000001 {other}"));
    }
    cases.push(scene("values: two hardware addresses", lines));
    let long = (crate::events::LINE - format!("checksum {UNSPECIFIED} {UNSPECIFIED} ").len()) / 2;
    let mut lines = Vec::new();
    for message in [
        "-".into(),
        "00".into(),
        "ff".into(),
        "0000".into(),
        "0001".into(),
        "0100".into(),
        "ffc2".into(),
        // The sum is all ones, and one more.
        "ffc3".into(),
        "ffc4".into(),
        "ffff".into(),
        "ffffff".into(),
        "010203".into(),
        "85000000000000000101020000000001".into(),
        "85007b2c000000000101020000000001".into(),
        "ff".repeat(long),
        "ff".repeat(long - 1),
        "a5".repeat(101),
    ] {
        lines.push(format!("checksum {UNSPECIFIED} {UNSPECIFIED} {message}"));
        lines.push(format!("checksum {OWN} {ALL_ROUTERS} {message}"));
    }
    lines.push(format!("checksum {ALL_ROUTERS} {OWN} 8500"));
    lines.push("checksum ffffffffffffffffffffffffffffffff ffffffffffffffffffffffffffffffff ffff".into());
    lines.push("checksum 00000000000000000000000000000001 00010000000000000000000000000000 00".into());
    cases.push(scene("values: checksums", lines));
    let whole = "85007b2c000000000101020000000001";
    let mut lines = Vec::new();
    for bytes in [0, 1, 2, 3, 4, 7, 8, 9, 15, 16] {
        let message = if bytes == 0 { "-" } else { &whole[..2 * bytes] };
        lines.push(format!("solicitation {message} {ALL_ROUTERS}"));
    }
    for addr in [ALL_NODES, UNSPECIFIED, OWN, "ff050000000000000000000000000002"] {
        lines.push(format!("solicitation {whole} {addr}"));
    }
    for other in ["84", "86", "05"] {
        lines.push(format!("solicitation {} {ALL_ROUTERS}", whole.replacen("85", other, 1)));
    }
    lines.push(format!("solicitation {} {ALL_ROUTERS}", whole.replacen("8500", "8501", 1)));
    lines.push(format!("solicitation {} {ALL_ROUTERS}", whole.replacen("7b2c", "0000", 1)));
    cases.push(scene("values: whether a message is a solicitation", lines));
    cases.extend(headers());
    cases
}

/// An advertisement's header, the check of all options, and one option after the other.
fn headers() -> Vec<Scene> {
    let mut cases = Vec::new();
    let mut lines = Vec::new();
    for flags in [0x00, 0x40, 0x80, 0xc0, 0x3f, 0xff] {
        lines.push(format!("advert {}", advert(flags, 9, &[])));
    }
    for lifetime in [0, 1, 255, 256, 0x0102, 0xff00, 0xffff] {
        lines.push(format!("advert {}", advert(0, lifetime, &[])));
    }
    let whole = advert(0xc0, 1_800, &[prefix(1, 9, 5)]);
    for bytes in [0, 1, 2, 8, 15, 16, 17, 24, 48] {
        lines.push(format!("advert {}", if bytes == 0 { "-" } else { &whole[..2 * bytes] }));
    }
    for (from, to) in [("86", "85"), ("86", "87"), ("86", "06"), ("8600", "8601"), ("8600", "8680"), ("8600", "8501")] {
        lines.push(format!("advert {}", whole.replacen(from, to, 1)));
    }
    // Short and of another type; an option that is malformed is not looked at.
    lines.push(format!("advert {}", &whole.replacen("86", "85", 1)[..30]));
    lines.push(format!("advert {}0100", advert(0, 9, &[])));
    cases.push(scene("values: an advertisement's header", lines));
    let well = [
        lladdr(&mac(1)),
        prefix(1, 9, 5),
        "0501000000000578".into(),
        "0201020000000002".into(),
        "0e02".to_string() + &"00".repeat(14),
        "0406".to_string() + &"00".repeat(46),
    ];
    let message = advert(0, 9, &well);
    let bytes = message.len() / 2;
    let mut lines: Vec<String> = [0, 15, 16, 17, 24, 56, 64, 72, 88, bytes - 8, bytes - 1, bytes, bytes + 1]
        .iter()
        .map(|place| format!("options {message} {place}"))
        .collect();
    lines.push(format!("options {message} {}", u64::MAX));
    lines.extend(lines!["options - 0", "options - 1", "options 01 0", "options 01 1", "options 01 2"]);
    for bad in ["01", "0101", "0e00000000000000", "0102000000000000", "0301000000000000", "0405000000000000"] {
        for front in 0..3 {
            lines.push(format!("options {}{bad} 16", advert(0, 9, &well[..front])));
        }
        lines.push(format!("options {bad}{} 0", lladdr(&mac(1))));
    }
    cases.push(scene("values: all options checked from a place", lines));
    let mut lines = Vec::new();
    for place in [16, 24, 56, 64, 72, 88, bytes, bytes + 1, bytes - 1, 0, 15, 17, 25, 48] {
        lines.push(format!("next {message} {place}"));
    }
    lines.push(format!("next {message} {}", u64::MAX));
    lines.push(format!("next {message} {}", u64::MAX - 7));
    lines.extend(lines!["next - 0", "next - 1", "next 01 0", "next 01 1", "next 01 2"]);
    for option in [
        "01010200000000",
        "0101020000000001",
        "010102000000000105",
        "0e00000000000000",
        "0102000000000000",
        "fd010000000000000000",
        "ff01000000000000",
        "0001000000000000",
    ] {
        lines.push(format!("next {option} 0"));
        lines.push(format!("next {}{option} 8", lladdr(&mac(1))));
    }
    for flags in [0x00, AUTONOMOUS, ON_LINK, BOTH, 0x3f, 0xff] {
        lines.push(format!("next {} 0", prefix_of(1, 64, flags, 9, 5)));
    }
    lines.push(format!("next {} 0", &prefix(1, 9, 5).replacen("0304", "0303", 1)[..48]));
    lines.push(format!("next {} 0", &prefix(1, 9, 5)[..62]));
    lines.push(format!("next 0406{} 0", "00".repeat(46)));
    lines.push(format!("next 0406{} 0", "00".repeat(45)));
    lines.push(format!("next 0405{} 0", "00".repeat(46)));
    cases.push(scene("values: one option after the other", lines));
    cases.push(modelled(
        "values: one option after the other, long lifetimes",
        [(1_073_742, 1), (ALL_ONES - 1, 5), (ALL_ONES, ALL_ONES)]
            .iter()
            .map(|(valid, preferred)| format!("next {} 0", prefix(1, *valid, *preferred)))
            .collect(),
    ));
    cases
}

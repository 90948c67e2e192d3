//! The reader and the writers of options.

use super::*;

fn read_options() -> Vec<Scene> {
    let option = |kind: u8, units: u8, bytes: usize| format!("option {}", option_of(kind, units, bytes));
    let mut cases = Vec::new();
    for kind in [1, 2, 5, 14] {
        let mut lines: Vec<String> = (0..=9).map(|bytes| option(kind, 1, bytes)).collect();
        lines.extend([0, 8, 16].map(|bytes| option(kind, 0, bytes)));
        lines.extend([15, 16, 17].map(|bytes| option(kind, 2, bytes)));
        lines.extend([8, 39, 40, 41].map(|bytes| option(kind, 5, bytes)));
        cases.push(scene(format!("options: type {kind} read, at each length's border"), lines));
    }
    for (kind, least) in [(3, 4u8), (4, 6)] {
        let mut lines: Vec<String> = [0, 1, 7, 8, 9].iter().map(|bytes| option(kind, 1, *bytes)).collect();
        lines.push(option(kind, 0, 64));
        for units in [least - 1, least, least + 1] {
            let bytes = 8 * usize::from(units);
            lines.extend([bytes - 1, bytes, bytes + 1, 8 * usize::from(least), 64].map(|bytes| option(kind, units, bytes)));
        }
        // Lifetimes made of numbered bytes are longer than the Rust's.
        cases.push(match kind {
            3 => modelled("options: type 3 read, at each length's border", lines),
            _ => scene("options: type 4 read, at each length's border", lines),
        });
    }
    cases.push(scene(
        "options: each type read, of one unit",
        [0, 1, 2, 3, 4, 5, 6, 7, 8, 13, 14, 24, 25, 31, 127, 128, 253, 254, 255].iter().map(|kind| option(*kind, 1, 8)).collect(),
    ));
    let longest = 255;
    cases.push(modelled(
        "options: the longest, of each kind",
        joined(&[
            [1, 3, 5, 255].iter().map(|kind| option(*kind, longest, 2_040)).collect(),
            lines![option(1, longest, 2_039), option(14, longest, 2_041)],
        ]),
    ));
    let mut lines = Vec::new();
    for flags in [0x00, 0x01, 0x20, 0x3f, AUTONOMOUS, ON_LINK, BOTH, 0x7f, 0xbf, 0xff] {
        lines.push(format!("option {}", prefix_of(1, 64, flags, 9, 5)));
    }
    for len in [0, 1, 63, 64, 65, 127, 128, 129, 255] {
        lines.push(format!("option {}", prefix_of(1, len, BOTH, 9, 5)));
    }
    for (valid, preferred) in [(0, 0), (1, 0), (0, 1), (1, 2), (256, 65_536), (1_073_741, 1_073_741)] {
        lines.push(format!("option {}", prefix(1, valid, preferred)));
    }
    lines.push(format!("option {}", prefix(1, 9, 5).to_uppercase()));
    // Reserved bytes, and bytes behind the option, tell nothing.
    lines.push(format!("option {}{}", prefix(1, 9, 5).replacen("0000000020010db8", "a5a5a5a520010db8", 1), filler(9)));
    // Lengths under 64 leave bits of 2001:db8:0:1 behind them.
    cases.push(modelled("options: a prefix's flags, length and lifetimes read", lines));
    cases.push(modelled(
        "options: long lifetimes read",
        [
            (1_073_742, 0),
            (0, 1_073_742),
            (4_294_967, 4_294_968),
            (1 << 31, 1 << 31),
            (ALL_ONES - 1, ALL_ONES - 1),
            (ALL_ONES, ALL_ONES),
            (0, ALL_ONES),
        ]
        .iter()
        .map(|(valid, preferred)| format!("option {}", prefix(1, *valid, *preferred)))
        .collect(),
    ));
    cases.push(scene(
        "options: an MTU read",
        [0u32, 1, 1_280, 1_500, 65_536, 0x0102_0304, ALL_ONES].iter().map(|mtu| format!("option 0501a5a5{mtu:08x}")).collect(),
    ));
    cases.push(scene(
        "options: a hardware address read, unicast or not",
        ["020000000001", "010000000001", "ffffffffffff", "000000000000", "0102030405ab"]
            .iter()
            .flat_map(|m| lines![format!("option 0101{m}"), format!("option 0201{m}")])
            .collect(),
    ));
    cases
}

fn write_options() -> Vec<Scene> {
    let mut cases = Vec::new();
    let options = [
        ("1", 8, format!("1 {}", mac(1))),
        ("2", 8, format!("2 {GROUP_MAC}")),
        ("3", 32, format!("3 64 192 9 5 {}", host(1))),
        ("5", 8, "5 1500".to_string()),
    ];
    for (kind, size, fields) in &options {
        let mut lines = Vec::new();
        for bytes in [0, 1, size - 1, *size, size + 1, size + 9, 2 * size] {
            let message = filler(bytes);
            let mut places = vec![0, 1, bytes.saturating_sub(*size), (bytes + 1).saturating_sub(*size), bytes, bytes + 1];
            places.sort();
            places.dedup();
            lines.extend(places.iter().map(|place| format!("write {message} {place} {fields}")));
            for place in [u64::from(u32::MAX), u64::from(u32::MAX) + 1, (1 << 63) - 1, u64::MAX - *size as u64 + 1, u64::MAX - 7, u64::MAX]
            {
                lines.push(format!("write {message} {place} {fields}"));
            }
        }
        cases.push(scene(format!("options: type {kind} written, at each place's border"), lines));
    }
    let mut lines = Vec::new();
    for len in [0, 1, 64, 128, 129, 255] {
        lines.push(format!("write {} 4 3 {len} 192 9 5 {}", filler(40), host(1)));
    }
    for flags in [0, 1, 32, 63, 64, 128, 192, 127, 191, 255] {
        lines.push(format!("write {} 4 3 64 {flags} 9 5 {}", filler(40), host(1)));
    }
    for (valid, preferred) in [(0, 0), (0, 1), (1, 0), (256, 65_536), (1_073_741, 1_073_741)] {
        lines.push(format!("write {} 4 3 64 192 {valid} {preferred} {}", filler(40), host(1)));
    }
    lines.push(format!("write {} 4 3 64 192 9 5 {}", "ff".repeat(40), UNSPECIFIED));
    cases.push(scene("options: a prefix's flags, length and lifetimes written", lines));
    cases.push(modelled(
        "options: long lifetimes written",
        [1_073_742u32, 4_294_967, 4_294_968, 1 << 31, ALL_ONES - 1, ALL_ONES]
            .iter()
            .map(|s| format!("write {} 4 3 64 192 {s} {s} {}", filler(40), host(1)))
            .collect(),
    ));
    let mut lines: Vec<String> =
        [0u32, 1, 1_280, 65_536, 0x0102_0304, ALL_ONES].iter().map(|mtu| format!("write {} 3 5 {mtu}", filler(12))).collect();
    lines.push(format!("write {} 3 1 ffffffffffff", "00".repeat(12)));
    lines.push(format!("write {} 3 2 000000000000", "ff".repeat(12)));
    cases.push(scene("options: an MTU and hardware addresses written", lines));
    // What was written, read.
    cases.push(modelled(
        "options: written, then read",
        lines![
            format!("write {} 0 1 {}", filler(8), mac(7)),
            format!("option 0101{}", mac(7)),
            format!("write {} 0 2 {}", filler(8), mac(7)),
            format!("option 0201{}", mac(7)),
            format!("write {} 0 5 1400", filler(8)),
            "option 0501000000000578",
            format!("write {} 0 3 57 255 100 50 {}", filler(32), host(3)),
            format!("option 030439c0000000640000003200000000{}", host(3)),
        ],
    ));
    // The longest message that a line holds.
    let bytes = (4_096 - "write  4294967288 1 020000000001".len()) / 2;
    let line = |place: usize| format!("write {} {place} 1 020000000001", filler(bytes));
    cases.push(scene("options: written at the end of a long message", lines![line(bytes - 8), line(bytes - 7)]));
    cases
}

/// The reader and the writers.
pub fn options() -> Vec<Scene> {
    let mut cases = read_options();
    cases.extend(write_options());
    cases
}

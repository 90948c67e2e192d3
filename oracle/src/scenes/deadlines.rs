//! Sweeps and polls with a deadline in the clock, and times around each deadline.

use super::*;

/// The deadlines in the clock of a call at `now` that finds `found`.
fn deadlines(now: u64, found: u64) -> Vec<String> {
    let mut all = lines!["-", 0, now - 1, now, now + 1, found - 1, found, found + 1, found + 100_000];
    all.dedup();
    all
}

/// Sweeps with a deadline in the clock, over each kind of entry; and times around each deadline.
pub fn sweep_deadlines() -> Vec<Scene> {
    const NOW: u64 = 500;
    let key = host(1);
    let due_soon = lines![format!("start 0 {key}"), "sweep 0 100 -"];
    let kinds: Vec<(&str, Vec<String>, u64)> = vec![
        ("no entry", Vec::new(), NOW + 7),
        ("started", lines![format!("start 0 {key}")], NOW + 1_000),
        ("incomplete, not due", due_soon.clone(), 1_100),
        ("incomplete and due", lines![format!("start 0 {key}"), "sweep 0 0 -", format!("insert 0 {} {} 900", host(2), mac(2))], NOW + 400),
        ("reachable", lines![format!("insert 0 {key} {} 700", mac(1))], 700),
        ("reachable, one more", lines![format!("insert 0 {key} {} 501", mac(1))], 501),
        ("reachable and over", lines![format!("insert 0 {key} {} 500", mac(1))], NOW + 7),
        ("stale", lines![format!("insert 0 {key} {} 5", mac(1)), "sweep 0 5 -"], NOW + 7),
        ("two, the earlier first", lines![format!("insert 0 {key} {} 700", mac(1)), format!("insert 0 {} {} 800", host(2), mac(2))], 700),
        (
            "two, the earlier last",
            lines![
                format!("insert 0 {key} {} 800", mac(1)),
                format!("start 0 {}", host(3)),
                format!("insert 0 {} {} 700", host(2), mac(2))
            ],
            700,
        ),
        ("of another interface", lines![format!("insert 3 {key} {} 800", mac(1)), format!("start 2 {key}")], 800),
    ];
    let mut cases = Vec::new();
    for (name, made, found) in kinds {
        let now = if name == "incomplete and due" { 1_000 } else { NOW };
        let found = if name == "incomplete and due" { 1_400 } else { found };
        let mut lines = Vec::new();
        for deadline in deadlines(now, found) {
            lines.push(new());
            lines.extend(made.clone());
            lines.extend(lines![format!("sweep 0 {now} {deadline}"), "cache"]);
            // On the same clock once more: what the events set anew joins now.
            lines.push(format!("sweep 0 {now} {deadline}"));
        }
        cases.push(scene(format!("deadline: sweep, {name}"), lines));
    }
    let mut lines = Vec::new();
    for late in [0, 1, 999, 5_000] {
        lines.extend(lines![new(), format!("start 0 {key}"), "sweep 0 0 -"]);
        // Each probe just before its time, at it or later, and once more.
        let mut due = 1_000;
        for _ in 0..3 {
            lines.extend(lines![
                format!("sweep 0 {} -", due - 1),
                format!("sweep 0 {} -", due + late),
                "cache",
                format!("sweep 0 {} 99000", due + late)
            ]);
            due += late + 1_000;
        }
    }
    cases.push(scene("deadline: probes 1, 2, 3 and the failure, in time and late", lines));
    cases.push(scene(
        "deadline: sweeps around the end of a reachable time",
        lines![
            format!("fill 0 {key} {} 5", mac(1)),
            "sweep 0 60004 -",
            "cache",
            "sweep 0 60005 -",
            "cache",
            "sweep 0 60006 -",
            format!("fill 0 {key} {} 5", mac(1)),
            "sweep 0 60006 -",
            "cache",
        ],
    ));
    cases.push(scene(
        "deadline: a sweep of an earlier time",
        lines![
            format!("start 0 {key}"),
            "sweep 0 5000 -",
            "sweep 0 10 -",
            "sweep 0 6000 -",
            "cache",
            "sweep 0 10 -",
            "sweep 0 6999 6000",
            "sweep 0 7000 6000",
            "sweep 0 10 9"
        ],
    ));
    // The deadline is of the sweep's clock alone.
    cases.push(scene(
        "deadline: none is kept between sweeps",
        lines![format!("start 0 {key}"), "sweep 0 0 5", format!("remove 0 {key}"), "sweep 0 0 -", "poll 0 0 - 16"],
    ));
    cases
}

/// Polls with a deadline in the clock.
pub fn poll_deadlines() -> Vec<Scene> {
    const NOW: u64 = 500;
    let up = lines![format!("address 0 {OWN} 64"), "link 0 up"];
    let with = |more: Vec<String>| joined(&[up.clone(), more]);
    let kinds: Vec<(&str, Vec<String>, u64)> = vec![
        ("nothing", Vec::new(), NOW + 7),
        ("off", lines!["off 0"], NOW + 7),
        ("a first solicitation", up.clone(), NOW + 4_000),
        ("a second solicitation", with(lines!["restart 0", "poll 0 0 - 16", "slaac 0"]), 4_000),
        ("the last solicitation", with(lines!["poll 0 0 - 16", "poll 0 4000 - 16"]), 8_000),
        ("none left", with(lines!["poll 0 0 - 16", "poll 0 4000 - 16", "poll 0 8000 - 16"]), NOW + 7),
        ("a retry with the link down", with(lines!["poll 0 0 - 16", "link 0 down"]), 4_000),
        ("a retry without a link-local address", lines!["link 0 up", format!("address 0 {} 64", host(1))], 4_000),
        ("a prefix", lines![ra(0, 1, 0, 0, &[prefix(1, 9, 2)]), "poll 0 0 - 16"], 9_000),
        ("a prefix, not synced", lines![ra(0, 1, 0, 0, &[prefix(1, 9, 2)])], 9_000),
        ("a prefix of another length", lines![ra(0, 1, 0, 0, &[prefix_of(1, 63, BOTH, 9, 2)])], 9_000),
        ("a router", lines![ra(0, 1, 0, 9, &[]), "poll 0 0 - 16"], 9_000),
        ("a prefix before a router", lines![ra(0, 1, 0, 9, &[prefix(1, 5, 2)])], 5_000),
        ("a router before a prefix", lines![ra(0, 1, 0, 5, &[prefix(1, 9, 2)])], 5_000),
        ("the last of four prefixes", lines![ra(0, 1, 0, 9, &[prefix(1, 8, 2), prefix(2, 7, 2), prefix(3, 6, 2), prefix(4, 5, 2)])], 5_000),
        ("the second router", lines![ra(0, 1, 0, 9, &[]), ra(0, 2, 0, 5, &[])], 5_000),
        ("a retry before a prefix", with(lines!["poll 0 0 - 16", ra(1, 1, 0, 3, &[])]), 4_000),
        ("another interface's", lines![ra(1, 1, 0, 9, &[prefix(1, 5, 2)]), "poll 1 0 - 16"], NOW + 7),
    ];
    let mut cases = Vec::new();
    for (name, made, found) in kinds {
        let mut lines = Vec::new();
        for deadline in deadlines(NOW, found) {
            lines.push(new());
            lines.extend(made.clone());
            lines.extend(lines![format!("poll 0 {NOW} {deadline} 16"), "slaac 0"]);
        }
        // A length of 63 leaves the last bit of 2001:db8:0:1 behind it.
        cases.push(match name {
            "a prefix of another length" => modelled(format!("deadline: poll, {name}"), lines),
            _ => scene(format!("deadline: poll, {name}"), lines),
        });
    }
    let mut lines = Vec::new();
    for (before, at) in [(3_999, 4_000), (3_999, 4_001), (0, 90_000)] {
        lines.extend(joined(&[lines![new()], up.clone()]));
        let mut sent = 0;
        lines.push("poll 0 0 - 16".into());
        for _ in 0..3 {
            lines.extend(lines![format!("poll 0 {} - 16", sent + before), format!("poll 0 {} - 16", sent + at), "slaac 0"]);
            sent += at;
        }
    }
    cases.push(scene("deadline: retries just before, at and after their time", lines));
    let mut lines = Vec::new();
    for (valid, router_life) in [(3, 9), (9, 3), (3, 3)] {
        lines.extend(lines![new(), ra(0, 1, 0, router_life, &[prefix(1, valid, 2)]), "poll 0 0 - 16"]);
        for time in [1_999, 2_000, 2_001, 2_999, 3_000, 3_001, 8_999, 9_000] {
            lines.extend(lines![format!("poll 0 {time} - 16"), "prefixes 0", "routers 0", "addresses 0", "routes"]);
        }
    }
    cases.push(scene("deadline: polls around each end of a prefix and a router", lines));
    cases.push(scene(
        "deadline: preferred times, synced just before, at and after",
        [1_999u64, 2_000, 2_001]
            .iter()
            .flat_map(|t| lines![new(), ra(0, 1, 0, 0, &[prefix(1, 9, 2)]), format!("poll 0 {t} - 16"), "addresses 0"])
            .collect(),
    ));
    cases
}

//! How many entries a sweep looked at.

use super::*;

fn start(iface: u64, n: u64) -> String {
    format!("start {iface} {}", host(n))
}

fn insert(iface: u64, n: u64, expires: u64) -> String {
    format!("insert {iface} {} {} {expires}", host(n), mac(n))
}

/// Sweeps of an interface at these times.
fn sweeps(iface: u64, times: &[u64]) -> Vec<String> {
    times.iter().map(|now| format!("sweep {iface} {now} -")).collect()
}

/// What is started and swept at 0 is retransmitted at the first and the second of these times, and fails at the third.
const PROBES: [u64; 3] = [1_000, 2_000, 3_000];

/// Each entry is looked at once, whatever it is and wherever it moves.
pub fn looked() -> Vec<Scene> {
    let [first, second, third] = PROBES;
    let up_to_second = [0, first, second];
    vec![
        scene(
            "looked: an empty cache",
            joined(&[
                (0..4).map(|iface| format!("sweep {iface} 0 {}", 5 * iface)).collect(),
                // Empty again.
                lines![start(0, 1), "sweep 0 0 -", format!("remove 0 {}", host(1)), "sweep 0 0 -"],
                lines![insert(2, 1, 900), insert(2, 2, 900), "sweep 2 0 -", "clear 2", "sweep 2 0 -"],
            ]),
        ),
        // Of all kinds and all interfaces, one more in front of each sweep.
        scene(
            "looked: 1 to 16 entries, none due",
            (0..CACHE)
                .flat_map(|n| {
                    let entry = if n % 3 == 0 { start(n % 4, n) } else { insert(n % 4, n, 1 + 40 * (n % 3)) };
                    lines![entry, format!("sweep {} {} -", n % 2, n)]
                })
                .chain(lines!["sweep 3 16 -", "sweep 0 999 5"])
                .collect(),
        ),
        scene(
            "looked: all 16 retransmit, and all fail in one sweep",
            joined(&[(0..CACHE).map(|n| start(0, n)).collect(), sweeps(0, &up_to_second), sweeps(0, &[third - 1, third, third])]),
        ),
        // The same of each number of entries.
        together(
            "looked: all of 1, 2, 3, 15 fail in one sweep",
            [1, 2, 3, CACHE - 1]
                .iter()
                .map(|count| scene("", joined(&[(0..*count).map(|n| start(1, n)).collect(), sweeps(1, &up_to_second), sweeps(1, &[third])])))
                .collect(),
        ),
        scene(
            "looked: a middle one fails, the one moved in retransmits",
            joined(&[
                lines![insert(0, 1, 90_000), start(0, 2), insert(0, 3, 90_000)],
                sweeps(0, &up_to_second),
                lines![start(0, 4)],
                sweeps(0, &[second]),
                lines!["cache"],
                sweeps(0, &[third]),
                lines!["cache"],
                sweeps(0, &[third]),
            ]),
        ),
        // One fails, the last moves in and fails, the one then last moves in and is not due.
        scene(
            "looked: a middle one fails, the one moved in fails too",
            joined(&[
                lines![insert(0, 1, 90_000), start(0, 2), insert(0, 3, 90_000), insert(0, 4, 90_000), start(0, 5)],
                sweeps(0, &up_to_second),
                lines!["cache"],
                sweeps(0, &[third]),
                lines!["cache"],
                sweeps(0, &[third]),
            ]),
        ),
        together(
            "looked: of 16 the first, a middle, the last fails",
            [0, 7, CACHE - 1]
                .iter()
                .map(|place| {
                    let entry = |n| if n == *place { start(0, n) } else { insert(n % 4, n, 90_000) };
                    scene("", joined(&[(0..CACHE).map(entry).collect(), sweeps(0, &up_to_second), sweeps(0, &[third, third])]))
                })
                .collect(),
        ),
        scene(
            "looked: the last one fails",
            joined(&[
                lines![insert(0, 1, 90_000), insert(0, 2, 0), start(0, 3)],
                sweeps(0, &up_to_second),
                sweeps(0, &[third, third]),
                // The only one is the last.
                lines![new(), start(3, 1)],
                sweeps(3, &up_to_second),
                sweeps(3, &[third, third]),
            ]),
        ),
        // A retransmission in front of a failure, and one behind it that did not move.
        scene(
            "looked: retransmissions around a failure",
            joined(&[
                lines![insert(0, 1, 90_000), start(0, 2), insert(0, 3, 90_000), insert(0, 4, 90_000)],
                sweeps(0, &up_to_second),
                lines![start(0, 1), start(0, 3)],
                sweeps(0, &[second, third]),
                lines!["cache"],
            ]),
        ),
        // Those of the others are looked at, and no event.
        scene(
            "looked: several interfaces, one is swept",
            joined(&[
                (0..CACHE).map(|n| start(n % 4, n)).collect(),
                lines!["sweep 2 0 -", "sweep 2 1000 -", "sweep 2 1000 -", "sweep 1 1000 -", "sweep 2 2000 -", "sweep 2 3000 -", "cache"],
                lines!["sweep 2 3000 -", "sweep 0 3000 -", "sweep 1 3000 -", "sweep 1 4000 -", "cache", "sweep 3 4000 -"],
            ]),
        ),
        scene(
            "looked: an interface without an entry",
            joined(&[lines![start(0, 1), insert(1, 1, 90_000), start(3, 1)], sweeps(2, &[0, first, 99_000])]),
        ),
        scene(
            "looked: only stale and reachable ones",
            joined(&[
                lines![insert(0, 1, 0), insert(0, 2, 500), insert(1, 3, 0), insert(0, 4, 90_000), insert(0, 5, 0)],
                sweeps(0, &[0, 499, 500, 90_000]),
            ]),
        ),
        // It becomes Incomplete in the expiry pass.
        scene(
            "looked: a started one",
            joined(&[
                lines![start(0, 1), "sweep 0 0 -", "cache", "sweep 0 999 -", "sweep 0 1000 -"],
                lines![new(), insert(0, 1, 0), start(1, 2), start(0, 3), "sweep 0 0 -", "cache", start(0, 1), "sweep 0 0 -", "cache"],
                // Started anew when it was due.
                lines![start(0, 3), "sweep 0 5000 -", "cache"],
            ]),
        ),
        // Over entries that are due; a sweep that is taken then looks at them.
        scene(
            "looked: refused by 3, by 7 and by both",
            joined(&[
                lines![start(0, 1), insert(0, 2, 0), start(3, 3), "sweep 0 0 -"],
                lines![format!("sweep 0 {} -", LATEST + 1), "sweep 4 1000 -", format!("sweep 4 {} -", LATEST + 1)],
                lines![format!("sweep 0 {} 7", u64::MAX), "sweep 255 1000 7", format!("sweep 255 {} 7", u64::MAX), "now"],
                lines!["cache", "sweep 0 1000 -", "sweep 3 1000 -"],
                // And of an empty cache.
                lines![new(), format!("sweep 0 {} -", LATEST + 1), "sweep 4 0 -", "sweep 0 0 -"],
            ]),
        ),
        // Turns say nothing of it; a sweep behind them does.
        scene(
            "looked: behind turns and calls that put and take entries",
            joined(&[
                lines![format!("turn 16 0 packet {} 7", host(1)), "sweep 0 0 -", "turn 16 1000 timer", "sweep 0 1000 -"],
                lines![format!("fill 1 {} {} 0", host(2), mac(2)), "sweep 0 1000 -", format!("remove 0 {}", host(1)), "sweep 0 1000 -"],
                lines![ra(0, 1, 0, 9, &[lladdr(&mac(1))]), "sweep 0 1000 -", "clear 1", "sweep 0 1000 -"],
                // A full cache evicts one for each that comes.
                (10..10 + CACHE + 2).map(|n| start(0, n)).collect(),
                lines!["sweep 0 1000 -"],
            ]),
        ),
    ]
}

//! Interfaces cleared in either order, an interface cleared twice, orphans purged twice: each order on a copy of one state, which the same lines
//! make anew. The cache, the queue and the routes are listed before and after each step.

use super::off::{push, with_address, with_router};
use super::*;

/// The lines of a step, of one interface.
fn step(words: &[&str], iface: u64) -> Vec<String> {
    words.iter().map(|word| format!("{word} {iface}")).collect()
}

fn steps(words: &[&str], ifaces: &[u64]) -> Vec<Vec<String>> {
    ifaces.iter().map(|iface| step(words, *iface)).collect()
}

/// A copy of the state, and steps.
fn copy(state: &[String], steps: &[Vec<String>]) -> Scene {
    let listed = steps.iter().map(|step| joined(&[self::state(&[]), step.clone()]));
    scene("", joined(&[state.to_vec(), listed.collect::<Vec<_>>().concat()]))
}

/// Steps, and on another copy the last first.
fn both(state: &[String], steps: &[Vec<String>]) -> Scene {
    let reversed: Vec<Vec<String>> = steps.iter().rev().cloned().collect();
    together("", vec![copy(state, steps), copy(state, &reversed)])
}

fn start(iface: u64, n: u64) -> String {
    format!("start {iface} {}", host(n))
}

/// Entries of all four interfaces between each other, the same addresses on each: Incomplete, Started, Reachable and Stale.
fn entries() -> Vec<String> {
    let filled = |n: u64| format!("fill {} {} {} 0", n % 4, host(n / 4), mac(n));
    let stale = |n: u64| format!("insert {} {} {} 50", n % 4, host(n / 4), mac(n));
    let mut lines: Vec<String> = (0..CACHE - 3).map(|n| [start(n % 4, n / 4), filled(n), stale(n)][n as usize % 3].clone()).collect();
    lines.push("sweep 0 100 -".into());
    lines.extend((CACHE - 3..CACHE).map(|n| start(n % 4, n / 4)));
    lines
}

/// Packets of all four between each other; the first is dropped by the last. Handles repeat, on one interface and on two, 0 among them.
fn packets() -> Vec<String> {
    let kept = [(0, 1, 7), (1, 1, 7), (2, 1, 0), (0, 2, 0), (1, 1, 7), (3, 1, 5), (1, 2, 0), (0, 1, 7)];
    joined(&[lines![push(1, 1, 9)], kept.iter().map(|(iface, n, handle)| push(*iface, *n, *handle)).collect()])
}

/// An entry and a packet of each interface.
fn of_each() -> Vec<String> {
    (0..4).flat_map(|iface| lines![start(iface, 1), push(iface, 1, 10 + iface)]).collect()
}

/// "clearing interface a and then b gives the same cache and queue as b and then a".
pub fn orders() -> Vec<Scene> {
    let all = ["clear", "purge"];
    let crowded = joined(&[entries(), packets()]);
    // Packets of neighbours of each state, and of none.
    let orphans = joined(&[
        lines![format!("fill 0 {} {} 0", host(1), mac(1)), format!("insert 0 {} {} 50", host(2), mac(2)), start(0, 3), "sweep 0 100 -"],
        lines![start(0, 4), start(1, 2), push(0, 1, 1), push(0, 2, 2), push(0, 3, 2)],
        lines![push(0, 4, 0), push(0, 5, 0), push(1, 1, 1), push(1, 2, 3)],
    ]);
    let orphan = || lines!["orphans"];
    let routes = joined(&[
        lines![format!("route 1 {}", router(1)), format!("route 0 {}", router(2))],
        (0..3).flat_map(with_address).collect(),
        lines![ra(1, 2, 0, 9, &[]), "poll 1 0 - 16", format!("route 0 {}", router(1))],
    ]);
    vec![
        together("orders: an entry of each", vec![both(&lines![start(0, 1), start(1, 2)], &steps(&["clear"], &[0, 1]))]),
        together(
            "orders: a full cache, entries of four interfaces between each other",
            vec![both(&entries(), &steps(&["clear"], &[1, 2])), both(&entries(), &steps(&["clear"], &[3, 0, 2, 1]))],
        ),
        together(
            "orders: a full queue, packets between each other, handles that repeat",
            vec![both(&packets(), &steps(&["purge"], &[0, 1])), both(&packets(), &steps(&["purge"], &[2, 1, 3, 0]))],
        ),
        together("orders: entries and packets", vec![both(&crowded, &steps(&all, &[2, 0]))]),
        // Each table by itself, and turning off beside it.
        together(
            "orders: an interface and itself",
            vec![
                both(&crowded, &steps(&all, &[1, 1])),
                both(&crowded, &[step(&["clear"], 1), step(&["purge"], 1)]),
                both(&joined(&[with_address(1), crowded.clone()]), &[step(&["off"], 1), step(&["purge"], 1)]),
            ],
        ),
        together(
            "orders: one above 3",
            vec![both(&of_each(), &steps(&all, &[0, 4])), both(&joined(&[with_address(3), of_each()]), &steps(&["off"], &[255, 3]))],
        ),
        together("orders: both above 3", vec![both(&of_each(), &steps(&all, &[4, 255])), both(&of_each(), &steps(&["off"], &[4, 4]))]),
        together(
            "orders: cleared twice",
            vec![
                copy(&crowded, &steps(&all, &[1, 1])),
                copy(&crowded, &steps(&["purge"], &[0, 3, 0])),
                copy(&joined(&[with_address(0), of_each()]), &steps(&["off"], &[0, 0])),
            ],
        ),
        together("orders: orphans twice against one cache", vec![copy(&orphans, &[orphan(), orphan()])]),
        // What waited goes with its entry, or once that is stale; a new entry makes nothing go.
        together(
            "orders: orphans twice against two caches",
            vec![
                copy(&orphans, &[orphan(), lines![format!("remove 0 {}", host(4)), "sweep 0 70000 -"], orphan(), orphan()]),
                copy(&orphans, &[orphan(), lines![start(0, 5), start(1, 1)], orphan()]),
            ],
        ),
        together(
            "orders: off, an address of each",
            vec![both(&joined(&[with_address(0), with_address(2), of_each(), packets()]), &steps(&["off"], &[0, 2]))],
        ),
        together(
            "orders: off, an address of one",
            vec![both(&joined(&[with_router(0), with_address(1), of_each()]), &steps(&["off"], &[0, 1]))],
        ),
        together("orders: off, no address", vec![both(&joined(&[with_router(0), of_each()]), &steps(&["off"], &[0, 1]))]),
        together("orders: off, routes of both and the application's", vec![both(&routes, &steps(&["off"], &[1, 0]))]),
        together(
            "orders: each in another way",
            vec![both(
                &joined(&[with_address(3), of_each()]),
                &[step(&["clear"], 0), step(&["purge"], 1), step(&all, 2), step(&["off"], 3)],
            )],
        ),
    ]
}

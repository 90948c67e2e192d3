//! The handles that turning SLAAC off hands back, and what became of one handle by every way.

use super::*;

pub(super) fn push(iface: u64, n: u64, handle: u64) -> String {
    format!("push {iface} {} {handle}", host(n))
}

fn release(iface: u64, n: u64) -> String {
    format!("release {iface} {}", host(n))
}

/// Interface `iface` has an address of SLAAC's.
pub(super) fn with_address(iface: u64) -> Vec<String> {
    lines![ra(iface, 1, 0, 9, &[prefix(1, 9, 5)]), format!("poll {iface} 0 - 16")]
}

/// And here a router alone.
pub(super) fn with_router(iface: u64) -> Vec<String> {
    lines![ra(iface, 1, 0, 9, &[]), format!("poll {iface} 0 - 16")]
}

/// "whose purge now returns its handles like the others".
pub fn off() -> Vec<Scene> {
    vec![
        // Two of one value and a 0 among them; what is pushed afterwards waits on, since SLAAC is off then.
        scene(
            "off: several packets between others, in order",
            joined(&[
                with_address(0),
                lines![push(0, 1, 9), push(1, 1, 9), push(0, 2, 0), push(0, 1, 9), push(2, 1, 0), push(0, 3, 4_294_967_295)],
                lines![push(3, 1, 5), push(0, 1, 5), "off 4", "queue", "off 0", "queue", push(0, 1, 6), "off 0", "queue", "purge 0"],
            ]),
        ),
        scene(
            "off: a full queue, all of it",
            joined(&[
                with_address(3),
                (0..=QUEUE).map(|n| push(3, n, 100 - n)).collect(),
                lines!["queue", "off 3", "queue", "on 3", push(3, 1, 1), "off 3"],
            ]),
        ),
        scene(
            "off: one packet, and none of its own",
            joined(&[
                with_address(0),
                with_address(1),
                lines![push(2, 1, 8), push(0, 1, 7), push(3, 1, 7), "off 1", "queue", "off 0", "queue", "off 2"],
            ]),
        ),
        // Also with an address of the application's, and with a prefix that is not synced.
        scene(
            "off: no address went, and its packets wait on",
            joined(&[
                with_router(0),
                lines![format!("address 1 {} 64", host(7)), ra(2, 1, 0, 9, &[prefix(1, 9, 5)])],
                lines![push(0, 1, 7), push(1, 1, 0), push(2, 1, 7), push(0, 2, 0), "off 0", "off 1", "off 2", "queue"],
                lines!["off 0", "queue", release(0, 1), "orphans"],
            ]),
        ),
        scene(
            "off: on and off again, by interface",
            joined(&[
                (0..4).flat_map(with_address).collect(),
                (0..QUEUE).map(|n| push(n % 4, n, n / 4)).collect(),
                (0..4).flat_map(|iface| lines![format!("off {iface}"), format!("on {iface}"), format!("off {iface}"), "queue"]).collect(),
            ]),
        ),
        // The first is dropped by a ninth push, a 7 too; one is released, one goes with interface 2, one as an orphan, two by turning off, three with interface 1.
        scene(
            "off: one handle by every way",
            joined(&[
                with_address(0),
                lines![format!("start 0 {}", host(1)), format!("start 1 {}", host(1))],
                lines![push(0, 1, 7), push(0, 1, 7), push(0, 2, 7), push(1, 1, 7), push(2, 1, 7), push(1, 1, 7), push(0, 1, 7), push(1, 1, 1)],
                lines![push(0, 1, 7), push(4, 1, 7), "queue", release(0, 1), release(0, 3), release(4, 1), "purge 4", "purge 2", "queue"],
                lines!["orphans", "queue", "off 0", "queue", push(1, 1, 7), "purge 1"],
            ]),
        ),
        // The main loop pushes, drops, releases and purges too.
        scene(
            "off: after turns of the main loop",
            joined(&[
                with_address(0),
                (1..=QUEUE + 1).map(|n| format!("turn 16 {n} packet {} {}", host(n % 3), n % 4)).collect(),
                lines!["queue", format!("turn 16 20 answer {} {}", host(1), mac(1)), "queue"],
                lines![format!("turn 16 21 packet {} 0", host(1)), format!("remove 0 {}", host(2)), "turn 16 22 timer", "queue", "off 0"],
            ]),
        ),
    ]
}

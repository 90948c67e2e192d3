//! Texts that hold, and for each sentence of the request a text that does not; which rules are marked; and what the generator makes.

use super::*;
use crate::calls::{Modelled, answer};
use crate::generate::{self, Reach};
use crate::scenes;

/// Interface 0 and then 1; then 1 and then 0. A row is a line and its answer.
const PAIR: &str = "\
new 020000000001 0 = ok
cache = 4; 0 a started; 2 c started; 1 b incomplete 1 9; 2 d stale 02
queue = 4; 1 b 7; 0 a 0; 2 c 7; 0 a 7
routes = 1; 0 r slaac 9
clear 0 = ok
purge 0 = dropped 2 0 7
cache = 3; 2 c started; 1 b incomplete 1 9; 2 d stale 02
queue = 2; 1 b 7; 2 c 7
routes = 1; 0 r slaac 9
clear 1 = ok
purge 1 = dropped 1 7
cache = 2; 2 c started; 2 d stale 02
queue = 1; 2 c 7
routes = 1; 0 r slaac 9
new 020000000001 0 = ok
cache = 4; 0 a started; 2 c started; 1 b incomplete 1 9; 2 d stale 02
queue = 4; 1 b 7; 0 a 0; 2 c 7; 0 a 7
routes = 1; 0 r slaac 9
clear 1 = ok
purge 1 = dropped 1 7
cache = 3; 0 a started; 2 c started; 2 d stale 02
queue = 3; 0 a 0; 2 c 7; 0 a 7
routes = 1; 0 r slaac 9
clear 0 = ok
purge 0 = dropped 2 0 7
cache = 2; 2 c started; 2 d stale 02
queue = 1; 2 c 7
routes = 1; 0 r slaac 9";

/// One interface in two ways: the first takes all.
const SAME: &str = "\
new 020000000001 0 = ok
cache = 0
queue = 2; 0 a 5; 0 a 6
routes = 0
off 0 = dropped 2 5 6
cache = 0
queue = 0
routes = 0
purge 0 = dropped 0
cache = 0
queue = 0
routes = 0
new 020000000001 0 = ok
cache = 0
queue = 2; 0 a 5; 0 a 6
routes = 0
purge 0 = dropped 2 5 6
cache = 0
queue = 0
routes = 0
off 0 = dropped 0
cache = 0
queue = 0
routes = 0";

/// SLAAC of two interfaces turned off, and of one above 3: each takes its own. Its addresses are shown behind.
const OFFS: &str = "\
new 020000000001 0 = ok
cache = 2; 0 a started; 1 b started
queue = 2; 1 b 3; 0 a 2
routes = 2; 1 r slaac 9; 0 r slaac 9
off 0 = dropped 1 2
cache = 1; 1 b started
queue = 1; 1 b 3
routes = 1; 1 r slaac 9
off 4 = refused 7
cache = 1; 1 b started
queue = 1; 1 b 3
routes = 1; 1 r slaac 9
off 1 = dropped 1 3
cache = 0
queue = 0
routes = 0
addresses 0 = 0
new 020000000001 0 = ok
cache = 2; 0 a started; 1 b started
queue = 2; 1 b 3; 0 a 2
routes = 2; 1 r slaac 9; 0 r slaac 9
off 1 = dropped 1 3
cache = 1; 0 a started
queue = 1; 0 a 2
routes = 1; 0 r slaac 9
off 4 = refused 7
cache = 1; 0 a started
queue = 1; 0 a 2
routes = 1; 0 r slaac 9
off 0 = dropped 1 2
cache = 0
queue = 0
routes = 0
addresses 0 = 0";

/// All four: 0, 1, 2, 3; then 1, 0, 3, 2.
const FOUR: &str = "\
new 020000000001 0 = ok
cache = 4; 0 a started; 1 a started; 2 a started; 3 a started
queue = 0
routes = 0
clear 0 = ok
cache = 3; 1 a started; 2 a started; 3 a started
queue = 0
routes = 0
clear 1 = ok
cache = 2; 2 a started; 3 a started
queue = 0
routes = 0
clear 2 = ok
cache = 1; 3 a started
queue = 0
routes = 0
clear 3 = ok
cache = 0
queue = 0
routes = 0
new 020000000001 0 = ok
cache = 4; 0 a started; 1 a started; 2 a started; 3 a started
queue = 0
routes = 0
clear 1 = ok
cache = 3; 0 a started; 2 a started; 3 a started
queue = 0
routes = 0
clear 0 = ok
cache = 2; 2 a started; 3 a started
queue = 0
routes = 0
clear 3 = ok
cache = 1; 2 a started
queue = 0
routes = 0
clear 2 = ok
cache = 0
queue = 0
routes = 0";

/// Twice; then orphans twice.
const TWICE: &str = "\
new 020000000001 0 = ok
cache = 3; 0 a started; 1 b reachable 02 9; 1 a stale 02
queue = 3; 0 a 4; 1 a 3; 1 b 2
routes = 0
clear 0 = ok
cache = 2; 1 b reachable 02 9; 1 a stale 02
queue = 3; 0 a 4; 1 a 3; 1 b 2
routes = 0
clear 0 = ok
cache = 2; 1 b reachable 02 9; 1 a stale 02
queue = 3; 0 a 4; 1 a 3; 1 b 2
routes = 0
orphans = dropped 2 4 3
cache = 2; 1 b reachable 02 9; 1 a stale 02
queue = 1; 1 b 2
routes = 0
orphans = dropped 0
cache = 2; 1 b reachable 02 9; 1 a stale 02
queue = 1; 1 b 2
routes = 0";

/// Orphans, something between, and orphans again: some go.
const BETWEEN: &str = "\
new 020000000001 0 = ok
cache = 1; 0 a started
queue = 2; 0 a 4; 1 b 5
routes = 0
orphans = dropped 1 5
cache = 1; 0 a started
queue = 1; 0 a 4
routes = 0
clear 0 = ok
cache = 0
queue = 1; 0 a 4
routes = 0
orphans = dropped 1 4
cache = 0
queue = 0
routes = 0";

/// SLAAC turned off: with an address, without one, and refused.
const OFF: &str = "\
new 020000000001 0 = ok
cache = 3; 0 a started; 1 b started; 2 c started
queue = 3; 0 a 1; 1 b 1; 2 c 1
routes = 4; 1 r slaac 9; 0 r static -; 0 r slaac 9; 2 s slaac 9
off 0 = dropped 1 1
cache = 2; 1 b started; 2 c started
queue = 2; 1 b 1; 2 c 1
routes = 3; 1 r slaac 9; 0 r static -; 2 s slaac 9
off 1 = dropped 0
cache = 2; 1 b started; 2 c started
queue = 2; 1 b 1; 2 c 1
routes = 2; 0 r static -; 2 s slaac 9
off 4 = refused 7
cache = 2; 1 b started; 2 c started
queue = 2; 1 b 1; 2 c 1
routes = 2; 0 r static -; 2 s slaac 9";

/// The rows with other answers at some of them, from 0.
fn held(text: &str, changed: &[(usize, &str)]) -> Result<Seen, Wrong> {
    let rows = text.lines().map(|row| row.split_once(" = ").unwrap());
    let (lines, mut answers): (Vec<&str>, Vec<&str>) = rows.unzip();
    changed.iter().for_each(|(row, answer)| answers[*row] = answer);
    check(&lines, &answers)
}

/// Where the changed rows do not hold, and why.
fn wrong(text: &str, changed: &[(usize, &str)], at: usize, why: &str) {
    let (line, said) = held(text, changed).expect_err("a text that does not hold");
    assert!(said.ends_with(why), "{said}");
    assert_eq!(line, at);
}

fn seen(pairs: u64, twice: u64, orphans_twice: u64) -> Result<Seen, Wrong> {
    Ok(Seen { pairs, twice, orphans_twice })
}

#[test]
fn what_holds() {
    assert_eq!(held(PAIR, &[]), seen(1, 0, 0));
    assert_eq!(held(SAME, &[]), seen(1, 0, 0));
    assert_eq!(held(OFFS, &[]), seen(1, 0, 0));
    assert_eq!(held(FOUR, &[]), seen(1, 0, 0));
    assert_eq!(held(TWICE, &[]), seen(0, 1, 1));
    assert_eq!(held(BETWEEN, &[]), seen(0, 0, 0));
    assert_eq!(held(OFF, &[]), seen(0, 0, 0));
    let twice = TWICE.to_string() + "\n" + TWICE;
    assert_eq!(held(&twice, &[]), seen(0, 2, 2));
}

#[test]
fn what_is_no_pair() {
    let second = PAIR.rfind("new").unwrap();
    let other = |from: &str, to: &str| PAIR[..second].to_string() + &PAIR[second..].replacen(from, to, 1);
    // Another front, another end, a line between, another step, another stretch between.
    for text in [
        other("new 020000000001 0", "new 020000000001 1"),
        PAIR.to_string() + "\nneighbors = 0",
        other("clear 0 = ok", "restart 2 = ok\nclear 0 = ok"),
        other("clear 1 = ok\npurge 1 = dropped 1 7", "purge 1 = dropped 1 7\nclear 1 = ok"),
        other("new", "new 020000000001 0 = ok\nnew"),
        // On both copies no listing in front of the first step.
        PAIR.replace("cache = 4", "neighbors = 4"),
        // The same order.
        PAIR[..second].to_string() + &PAIR[..second - 1],
    ] {
        assert_ne!(text, PAIR);
        assert_eq!(held(&text, &[]), seen(0, 0, 0), "{text}");
    }
    // Two steps of the same lines have one order: they are cleared twice.
    let same = SAME.replace("off 0", "purge 0");
    assert_eq!(held(&same, &[]), seen(0, 2, 0));
    // Refused ones are not.
    let refused = "new 020000000001 0 = ok\ncache = 0\nqueue = 0\nroutes = 0\n".to_string()
        + &"off 4 = refused 7\ncache = 0\nqueue = 0\nroutes = 0\n".repeat(2);
    assert_eq!(held(&refused, &[]), seen(0, 0, 0));
}

#[test]
fn copies_of_one_state() {
    let why = "the two are no copies of one state";
    // An entry more on the second, which goes with its interface: the ends are the same.
    let more = [
        (15, "5; 0 a started; 0 e started; 2 c started; 1 b incomplete 1 9; 2 d stale 02"),
        (20, "4; 0 a started; 0 e started; 2 c started; 2 d stale 02"),
    ];
    wrong(PAIR, &more, 15, why);
    wrong(PAIR, &[(14, "bad line")], 14, why);
    wrong(OFFS, &[(20, "1; 0 r slaac 9"), (24, "1; 0 r slaac 9"), (28, "1; 0 r slaac 9")], 20, why);
}

#[test]
fn both_orders_end_alike() {
    let why = "it ends otherwise than in the other order";
    wrong(PAIR, &[(25, "3; 2 c started; 2 d stale 02; 3 e started")], 25, why);
    wrong(PAIR, &[(26, "0")], 26, why);
    wrong(PAIR, &[(27, "0")], 27, why);
    wrong(FOUR, &[(37, "1; 2 a started")], 37, why);
    // What is shown behind the listing.
    wrong(OFFS, &[(33, "1; f 64 slaac 9 5")], 33, why);
    // Each step by itself could be so: interface 0 keeps what is its own.
    let kept = [(29, "dropped 0"), (30, "1; 0 a started"), (31, "1; 0 a 2")];
    wrong(OFFS, &kept, 29, "interface 0: other handles than in the other order");
    let silent = OFFS.replace("queue = 2; 1 b 3; 0 a 2", "queue = 1; 1 b 3").replace("queue = 1; 0 a 2", "queue = 0");
    let silent = silent.replace("off 0 = dropped 1 2", "off 0 = dropped 0");
    assert_eq!(held(&silent, &[]), seen(1, 0, 0));
    wrong(&silent, &[(30, "1; 0 a started")], 30, why);
}

#[test]
fn an_outcome_is_the_same_in_both_orders() {
    wrong(PAIR, &[(18, "refused 7")], 18, "interface 1: another outcome than in the other order");
    wrong(PAIR, &[(24, "refused 7")], 23, "interface 0: another outcome than in the other order");
    wrong(OFFS, &[(25, "dropped 0")], 25, "interface 4: another outcome than in the other order");
}

#[test]
fn handles_are_the_same_in_both_orders() {
    wrong(PAIR, &[(19, "dropped 1 9")], 18, "interface 1: other handles than in the other order");
    wrong(PAIR, &[(24, "dropped 2 7 0")], 23, "interface 0: other handles than in the other order");
}

#[test]
fn a_handle_comes_back_as_often() {
    wrong(SAME, &[(16, "dropped 2 5 5")], 16, "a handle comes back more often than in the other order, or less");
    wrong(SAME, &[(20, "dropped 1 5")], 16, "a handle comes back more often than in the other order, or less");
}

#[test]
fn nothing_goes_the_second_time() {
    wrong(TWICE, &[(9, "1; 1 b reachable 02 9")], 8, "interface 0: nothing goes the second time");
    wrong(TWICE, &[(10, "2; 1 a 3; 1 b 2")], 8, "interface 0: nothing goes the second time");
    wrong(TWICE, &[(18, "0")], 16, "orphans: nothing goes the second time");
    // With something between they may, but only what is its own.
    wrong(BETWEEN, &[(12, "dropped 0")], 12, "the handles of what went come back, in order");
    wrong(BETWEEN, &[(14, "1; 0 a 4")], 12, "its own goes, and the others stay in their order");
}

#[test]
fn no_handle_comes_back_the_second_time() {
    let purged = TWICE.replace("clear 0 = ok", "purge 0 = dropped 0");
    wrong(&purged, &[(8, "dropped 1 4")], 8, "interface 0: no handle comes back the second time");
    wrong(TWICE, &[(16, "dropped 1 4")], 16, "orphans: no handle comes back the second time");
}

#[test]
fn others_keep_their_order() {
    let why = "its own goes, and the others stay in their order";
    wrong(PAIR, &[(6, "3; 1 b incomplete 1 9; 2 c started; 2 d stale 02")], 4, why);
    wrong(PAIR, &[(7, "2; 2 c 7; 1 b 7")], 4, why);
    // One of its own stays; one of another goes; of another table.
    wrong(PAIR, &[(6, "4; 0 a started; 2 c started; 1 b incomplete 1 9; 2 d stale 02")], 4, why);
    wrong(PAIR, &[(6, "2; 2 c started; 2 d stale 02")], 4, why);
    wrong(TWICE, &[(6, "2; 1 a 3; 1 b 2"), (10, "2; 1 a 3; 1 b 2")], 4, why);
    wrong(PAIR, &[(8, "0")], 4, why);
    // An entry without its packet; the application's route; its own route stays; a refused one takes something.
    wrong(OFF, &[(6, "3; 0 a 1; 1 b 1; 2 c 1")], 4, why);
    wrong(OFF, &[(7, "2; 1 r slaac 9; 2 s slaac 9")], 4, why);
    wrong(OFF, &[(7, "4; 1 r slaac 9; 0 r static -; 0 r slaac 9; 2 s slaac 9")], 4, why);
    wrong(OFF, &[(13, "1; 2 c started")], 12, why);
    // An orphan stays; one that waits goes.
    wrong(TWICE, &[(14, "2; 1 a 3; 1 b 2"), (18, "2; 1 a 3; 1 b 2")], 12, why);
    wrong(TWICE, &[(14, "0"), (18, "0")], 12, why);
}

#[test]
fn the_handles_of_what_went_come_back() {
    let why = "the handles of what went come back, in order";
    wrong(PAIR, &[(5, "dropped 2 7 0")], 4, why);
    wrong(OFF, &[(4, "dropped 0")], 4, why);
    wrong(OFF, &[(8, "dropped 1 1")], 8, why);
    wrong(TWICE, &[(12, "dropped 1 4")], 12, why);
}

#[test]
fn number_7_above_3_alone() {
    let why = "number 7 above 3, and no other";
    wrong(OFF, &[(12, "dropped 0")], 12, why);
    wrong(OFF, &[(12, "refused 3")], 12, why);
    wrong(OFF, &[(4, "refused 7")], 4, why);
    wrong(OFFS, &[(8, "dropped 0")], 8, why);
    wrong(OFFS, &[(8, "refused 3")], 8, why);
}

#[test]
fn answers_that_do_not_read() {
    wrong(PAIR, &[(5, "dropped 2 0")], 5, "an answer that does not read");
    wrong(PAIR, &[(4, "dropped 0")], 4, "an answer that does not read");
    wrong(TWICE, &[(16, "refused 7")], 16, "an answer that does not read");
    wrong(PAIR, &[(7, "2; 1 b 7")], 7, "a listing that does not read");
}

// ---- rules

/// The rules of this file that are marked, once or more.
fn marked() -> Vec<&'static str> {
    let fired = model::marks::take();
    let names = model::marks::names().iter().zip(fired);
    names.filter(|(_, n)| *n > 0).filter_map(|(name, _)| name.strip_prefix("calls.orders-")).collect()
}

/// The model's answers to the lines, held: how much there was, and the rules that are marked.
fn by_model(lines: &[String]) -> (Seen, Vec<&'static str>) {
    let mut side = Modelled::default();
    let answers: Vec<String> = lines.iter().map(|line| answer(&mut side, line)).collect();
    model::marks::take();
    let seen = check(lines, &answers).unwrap_or_else(|(line, why)| panic!("line {line}: {why}\n{}", lines.join("\n")));
    (seen, marked())
}

/// A copy of a state, and steps, parted by `; `.
fn copy(state: &[String], steps: &[&str]) -> Vec<String> {
    let listing = || LISTING.map(String::from).to_vec();
    let mut lines = [vec!["new 020000000001 0".to_string()], state.to_vec(), listing()].concat();
    for step in steps {
        lines.extend(step.split("; ").map(String::from));
        lines.extend(listing());
    }
    lines
}

/// The rules that the steps mark on one copy, and in the other order on another.
fn rules_of(state: &[String], steps: &[&str]) -> Vec<&'static str> {
    let reversed: Vec<&str> = steps.iter().rev().copied().collect();
    by_model(&[copy(state, steps), copy(state, &reversed)].concat()).1
}

fn start(iface: u64, n: u64) -> String {
    format!("start {iface} {:032x}", 0x2001_0db8u128 << 96 | u128::from(n))
}

fn push(iface: u64, n: u64, handle: u64) -> String {
    format!("push {iface} {:032x} {handle}", 0x2001_0db8u128 << 96 | u128::from(n))
}

/// An address of SLAAC's.
fn address(iface: u64) -> Vec<String> {
    let prefix = "030440c000000009000000050000000020010db8000000010000000000000000";
    vec![format!("ra {iface} fe800000000000000000000000000001 0 86000000400000090000000000000000{prefix}"), format!("poll {iface} 0 - 16")]
}

#[test]
fn rules_of_what_goes() {
    let entries = [start(0, 1), start(1, 1)];
    assert_eq!(rules_of(&entries, &["clear 0", "clear 1"]), ["clear"]);
    assert_eq!(rules_of(&entries[..1], &["clear 0", "clear 1"]), [""; 0]);
    assert_eq!(rules_of(&entries, &["purge 0", "purge 1"]), [""; 0]);
    let packets = [push(0, 1, 5), push(0, 1, 5), push(1, 1, 6)];
    assert_eq!(rules_of(&packets, &["purge 0", "purge 1"]), ["purge"]);
    assert_eq!(rules_of(&packets[..2], &["purge 0", "purge 1"]), [""; 0]);
    assert_eq!(rules_of(&packets, &["clear 0", "clear 1"]), [""; 0]);
    // A handle of one interface is none of two.
    assert_eq!(rules_of(&[push(0, 1, 6), push(1, 1, 6)], &["purge 0", "purge 1"]), ["purge", "same-handle"]);
    assert_eq!(rules_of(&[entries.to_vec(), packets.to_vec()].concat(), &["clear 0; purge 0", "purge 1; clear 1"]), ["clear", "purge"]);
}

#[test]
fn rules_of_turning_off() {
    let own = vec![start(0, 1), push(1, 1, 6)];
    assert_eq!(rules_of(&[address(0), address(1), own.clone()].concat(), &["off 0", "off 1"]), ["off"]);
    // No address of the second: what is its own stays. It is cleared in another way; it has none; and none has an address.
    let one = [address(0), own.clone()].concat();
    assert_eq!(rules_of(&one, &["off 0", "off 1"]), ["off-one"]);
    assert_eq!(rules_of(&one, &["off 0", "clear 1"]), [""; 0]);
    assert_eq!(rules_of(&one[..3], &["off 0", "off 1"]), [""; 0]);
    assert_eq!(rules_of(&own, &["off 0", "off 1"]), [""; 0]);
}

#[test]
fn rules_of_places() {
    // Another interface's entries on both sides of one that goes; on no two sides.
    assert_eq!(rules_of(&[start(2, 1), start(0, 1), start(2, 2), start(1, 1)], &["clear 0", "clear 1"]), ["clear", "keep-order"]);
    assert_eq!(rules_of(&[start(0, 1), start(2, 1), start(2, 2), start(1, 1)], &["clear 0", "clear 1"]), ["clear"]);
    let packets = [push(2, 1, 1), push(0, 1, 2), push(2, 1, 3), push(1, 1, 4)];
    assert_eq!(rules_of(&packets, &["purge 0", "purge 1"]), ["purge", "keep-order"]);
    assert_eq!(rules_of(&packets[1..], &["purge 0", "purge 1"]), ["purge"]);
    // Full, and one short of it; full, and nothing goes.
    let entries: Vec<String> = (0..16).map(|n| start(n / 8, n)).collect();
    assert_eq!(rules_of(&entries, &["clear 0", "clear 1"]), ["clear", "full-cache"]);
    assert_eq!(rules_of(&entries[1..], &["clear 0", "clear 1"]), ["clear"]);
    assert_eq!(rules_of(&entries, &["clear 2", "clear 3"]), [""; 0]);
    let packets: Vec<String> = (0..8).map(|n| push(n / 4, 1, n)).collect();
    assert_eq!(rules_of(&packets, &["purge 0", "purge 1"]), ["purge", "full-queue"]);
    assert_eq!(rules_of(&packets[1..], &["purge 0", "purge 1"]), ["purge"]);
    assert_eq!(rules_of(&packets, &["purge 2", "purge 3"]), [""; 0]);
}

#[test]
fn rules_of_interfaces() {
    let each: Vec<String> = (0..4).map(|iface| start(iface, 1)).collect();
    assert_eq!(rules_of(&each, &["clear 0", "clear 1", "clear 2", "clear 3"]), ["clear", "four"]);
    assert_eq!(rules_of(&each[1..], &["clear 0", "clear 1", "clear 2", "clear 3"]), ["clear"]);
    assert_eq!(rules_of(&each, &["clear 0", "clear 1", "clear 2"]), ["clear"]);
    // One interface in two ways; nothing goes; in one way, which is no pair.
    assert_eq!(rules_of(&each, &["clear 0", "clear 0; purge 0"]), ["same-interface-two-ways"]);
    assert_eq!(rules_of(&each[1..], &["clear 0", "clear 0; purge 0"]), [""; 0]);
    assert_eq!(rules_of(&each, &["clear 0", "clear 0"]), ["twice"]);
    // Number 7 for one, for both; and nothing goes by the other.
    assert_eq!(rules_of(&each, &["clear 0", "clear 4"]), ["one-7"]);
    assert_eq!(rules_of(&each[1..], &["clear 0", "clear 4"]), [""; 0]);
    assert_eq!(rules_of(&each, &["clear 4", "clear 5"]), ["both-7"]);
    assert_eq!(rules_of(&each, &["clear 4", "clear 4"]), [""; 0]);
}

#[test]
fn rules_of_twice() {
    let rules = |state: &[String], steps: &[&str]| by_model(&copy(state, steps)).1;
    let state = [start(0, 1), start(1, 1), push(0, 1, 4), push(2, 1, 5)];
    assert_eq!(rules(&state, &["clear 0", "clear 0"]), ["twice"]);
    assert_eq!(rules(&state, &["clear 0", "purge 1", "clear 0"]), ["twice"]);
    assert_eq!(rules(&state, &["clear 3", "clear 3"]), [""; 0]);
    assert_eq!(rules(&state, &["clear 0", "purge 0"]), [""; 0]);
    assert_eq!(rules(&state, &["orphans", "orphans"]), ["orphans-twice"]);
    assert_eq!(rules(&state[..3], &["orphans", "orphans"]), [""; 0]);
    // Between them an entry goes that a packet waits for; none; a packet is pushed.
    assert_eq!(rules(&state, &["orphans", "clear 0", "orphans"]), ["orphans-two-caches"]);
    assert_eq!(rules(&state, &["orphans", "clear 1", "orphans"]), [""; 0]);
    assert_eq!(rules(&state, &["orphans", &push(3, 1, 5), "orphans"]), [""; 0]);
}

/// What does not hold marks no rule.
#[test]
fn no_rule_of_what_is_wrong() {
    model::marks::take();
    assert_eq!(held(PAIR, &[]), seen(1, 0, 0));
    assert_eq!(marked(), ["clear", "purge", "keep-order", "same-handle"]);
    assert!(held(PAIR, &[(25, "0")]).is_err());
    assert!(held(PAIR, &[(20, "2; 0 a started; 2 c started")]).is_err());
    assert_eq!(marked(), [""; 0]);
}

// ---- what is generated and recorded

#[test]
fn generated_pairs() {
    for reach in [Reach::Inside, Reach::Wide] {
        let (mut twice, mut orphans_twice, mut full, all) = (0, 0, 0, 300);
        for n in 0..all {
            let (seen, rules) = by_model(&generate::orders(9, n, reach));
            assert_eq!(seen.pairs, 1, "sequence {n}");
            twice += seen.twice;
            orphans_twice += seen.orphans_twice;
            full += u64::from(rules.contains(&"full-cache") || rules.contains(&"full-queue"));
        }
        assert!(twice > all / 5 && orphans_twice > all / 5 && full > all / 5, "{twice} {orphans_twice} {full}");
    }
}

#[test]
fn recorded_rules() {
    let mut reached = BTreeSet::new();
    for scene in scenes::all() {
        let lines: Vec<String> = String::from_utf8_lossy(&scene.text).lines().map(String::from).collect();
        reached.extend(by_model(&lines).1);
    }
    let all = model::marks::names().iter().filter_map(|name| name.strip_prefix("calls.orders-"));
    assert_eq!(reached, all.collect::<BTreeSet<_>>());
}

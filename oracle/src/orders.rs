//! Request 2026-09: interfaces cleared in either order, an interface cleared twice, and orphans purged twice, held to the request by call lines and
//! their answers alone.
//!
//! A stretch is the lines from a `new` to before the next. What counts is its end, as far back as it lists, clears, lists, clears, .., lists:
//!
//! - a listing is `cache`, `queue` and `routes` in a row (`LISTING`), among lines that only show (`SHOWS`, `SHOWS_OF`);
//! - a step, which stands between two listings, is `orphans`, or lines `clear IF`, `purge IF` and `off IF` of one interface.
//!
//! Two stretches that follow each other are a pair if their lines are the same up to the first step and behind the last, and if their steps, all of
//! interfaces, are the same in another order. Up to the first step their answers must be the same too: they are copies of one state.

use std::collections::{BTreeMap, BTreeSet};
use std::fmt;
use std::ops::AddAssign;

use crate::counts::entries;
use crate::events::LINE;
use crate::text::{fixed, number};
use model::mark;

/// The lines of a listing.
pub const LISTING: [&str; 3] = ["cache", "queue", "routes"];
/// Lines that only show.
const SHOWS: &[&str] = &["cache", "queue", "routes", "neighbors", "destinations"];
/// First words of lines that only show something of an interface.
const SHOWS_OF: &[&str] = &["slaac", "prefixes", "routers", "addresses", "source"];

/// How much there was to hold.
#[derive(Debug, Default, Clone, Copy, PartialEq, Eq)]
pub struct Seen {
    pub pairs: u64,
    /// Steps of an interface after the same one, refused ones aside.
    pub twice: u64,
    /// Steps `orphans` right after another.
    pub orphans_twice: u64,
}

impl AddAssign for Seen {
    fn add_assign(&mut self, more: Seen) {
        self.pairs += more.pairs;
        self.twice += more.twice;
        self.orphans_twice += more.orphans_twice;
    }
}

impl fmt::Display for Seen {
    fn fmt(&self, f: &mut fmt::Formatter) -> fmt::Result {
        write!(f, "both orders: {} pairs; cleared twice: {}; orphans twice: {}", self.pairs, self.twice, self.orphans_twice)
    }
}

/// The line, from 0, and what is wrong there.
pub type Wrong = (usize, String);

/// The handles that came back, or the number of a refusal.
type Outcome = Result<Vec<u32>, u32>;

struct Call<'a> {
    /// Its line, from 0.
    at: usize,
    line: &'a [u8],
    answer: &'a str,
}

/// What a step clears.
#[derive(Clone, Copy, PartialEq, Eq, PartialOrd, Ord)]
enum What {
    Orphans,
    Interface(u8),
}

enum Kind {
    Shows,
    Clears(What),
    Other,
}

#[derive(Clone, PartialEq, Eq)]
struct Listing<'a> {
    cache: Vec<&'a str>,
    queue: Vec<&'a str>,
    routes: Vec<&'a str>,
}

struct Step<'a> {
    calls: &'a [Call<'a>],
    what: What,
    outcomes: Vec<Outcome>,
    before: Listing<'a>,
    after: Listing<'a>,
}

struct Stretch<'a> {
    /// Up to the first step.
    front: &'a [Call<'a>],
    steps: Vec<Step<'a>>,
    /// Behind the last.
    back: &'a [Call<'a>],
}

// ---- lines

fn fields(line: &[u8]) -> Vec<&str> {
    let read = str::from_utf8(line).ok().filter(|_| line.len() <= LINE);
    read.map_or(Vec::new(), |line| line.split(' ').collect())
}

fn same_lines(some: &[Call], others: &[Call]) -> bool {
    some.iter().map(|call| call.line).eq(others.iter().map(|call| call.line))
}

impl Call<'_> {
    fn is_new(&self) -> bool {
        matches!(fields(self.line)[..], ["new", mac, first] if fixed::<6>(mac.as_bytes()).is_some() && number(first.as_bytes()).is_some())
    }

    fn kind(&self) -> Kind {
        match fields(self.line)[..] {
            [word] if SHOWS.contains(&word) => Kind::Shows,
            [word, _] if SHOWS_OF.contains(&word) => Kind::Shows,
            ["orphans"] => Kind::Clears(What::Orphans),
            ["clear" | "purge" | "off", iface] => {
                let iface = number(iface.as_bytes()).and_then(|n| u8::try_from(n).ok());
                iface.map_or(Kind::Other, |iface| Kind::Clears(What::Interface(iface)))
            }
            _ => Kind::Other,
        }
    }

    fn outcome(&self) -> Result<Outcome, Wrong> {
        let clears = self.line.starts_with(b"clear ");
        let numbers: Option<Vec<u32>> = self.answer.split(' ').skip(1).map(|n| n.parse().ok()).collect();
        match (self.answer.split(' ').next(), numbers.as_deref()) {
            (Some("refused"), Some([number])) if self.line != b"orphans" => Ok(Err(*number)),
            (Some("ok"), Some([])) if clears => Ok(Ok(Vec::new())),
            (Some("dropped"), Some([count, handles @ ..])) if !clears && *count as usize == handles.len() => Ok(Ok(handles.to_vec())),
            _ => Err((self.at, "an answer that does not read".into())),
        }
    }

    fn list(&self) -> Result<Vec<&str>, Wrong> {
        entries(self.answer).ok_or((self.at, "a listing that does not read".into()))
    }
}

/// Where the lines of a kind begin that end in front of `end`.
fn run_of(calls: &[Call], end: usize, is_of: impl Fn(Kind) -> bool) -> usize {
    calls[..end].iter().rposition(|call| !is_of(call.kind())).map_or(0, |i| i + 1)
}

/// What the lines clear, if they are a step.
fn step_of(calls: &[Call]) -> Option<What> {
    let of = |call: &Call| match call.kind() {
        Kind::Clears(what) => Some(what),
        _ => None,
    };
    let what = of(calls.first()?)?;
    let alike = calls.iter().all(|call| of(call) == Some(what));
    (alike && (what != What::Orphans || calls.len() == 1)).then_some(what)
}

// ---- listings

/// The interface, the address and the word behind it of an entry, a packet or a route.
fn words(entry: &str) -> [&str; 3] {
    let mut words = entry.split(' ');
    [(); 3].map(|()| words.next().unwrap_or(""))
}

fn listing<'a>(calls: &'a [Call<'a>]) -> Result<Listing<'a>, Wrong> {
    Ok(Listing { cache: calls[0].list()?, queue: calls[1].list()?, routes: calls[2].list()? })
}

/// Whether something went from between two that stay.
fn apart(before: &[&str], after: &[&str]) -> bool {
    let stays: Vec<bool> = before.iter().map(|entry| after.contains(entry)).collect();
    let (first, last) = (stays.iter().position(|s| *s), stays.iter().rposition(|s| *s));
    first.zip(last).is_some_and(|(first, last)| stays[first..last].contains(&false))
}

// ---- steps

impl<'a> Step<'a> {
    fn handles(&self) -> Vec<u32> {
        self.outcomes.iter().flatten().flatten().copied().collect()
    }

    fn numbers(&self) -> Vec<Option<u32>> {
        self.outcomes.iter().map(|outcome| outcome.as_ref().err().copied()).collect()
    }

    fn has(&self, word: &str) -> bool {
        self.calls.iter().any(|call| fields(call.line)[0] == word)
    }

    fn is_refused(&self) -> bool {
        self.outcomes.iter().all(|outcome| outcome.is_err())
    }

    fn is_of_orphans(&self) -> bool {
        self.what == What::Orphans
    }

    fn is_own(&self, entry: &str) -> bool {
        matches!(self.what, What::Interface(iface) if words(entry)[0] == iface.to_string())
    }

    /// Whether an entry or a packet went.
    fn takes(&self) -> bool {
        self.before.cache != self.after.cache || self.before.queue != self.after.queue
    }

    /// Whether it has the same lines.
    fn is_like(&self, other: &Step) -> bool {
        same_lines(self.calls, other.calls)
    }

    fn wrong(&self, why: &str) -> Result<(), Wrong> {
        let name = match self.what {
            What::Orphans => "orphans".into(),
            What::Interface(iface) => format!("interface {iface}"),
        };
        Err((self.calls[0].at, format!("{name}: {why}")))
    }

    /// What it may leave of the listing before it.
    fn may_leave(&self) -> Vec<Listing<'a>> {
        let before = &self.before;
        if self.is_of_orphans() {
            let live = before.cache.iter().map(|entry| words(entry)).filter(|[_, _, state]| *state != "stale");
            let keys: BTreeSet<(&str, &str)> = live.map(|[iface, addr, _]| (iface, addr)).collect();
            let mut left = before.clone();
            left.queue.retain(|packet| keys.contains(&(words(packet)[0], words(packet)[1])));
            return vec![left];
        }
        if self.is_refused() {
            return vec![before.clone()];
        }
        let left = |cleared: bool, purged: bool| {
            let mut left = before.clone();
            left.cache.retain(|entry| !(cleared && self.is_own(entry)));
            left.queue.retain(|packet| !(purged && self.is_own(packet)));
            left.routes.retain(|route| !(self.has("off") && self.is_own(route) && words(route)[2] == "slaac"));
            left
        };
        let mut may = vec![left(self.has("clear"), self.has("purge"))];
        if self.has("off") {
            // If an address went.
            may.push(left(true, true));
        }
        may
    }

    /// What it does by itself.
    fn check(&self) -> Result<(), Wrong> {
        let number = if matches!(self.what, What::Interface(4..)) { Some(7) } else { None };
        if self.numbers().iter().any(|n| *n != number) {
            return self.wrong("number 7 above 3, and no other");
        }
        if !self.may_leave().contains(&self.after) {
            return self.wrong("its own goes, and the others stay in their order");
        }
        let mut rest = self.after.queue.iter().peekable();
        let gone = self.before.queue.iter().filter(|packet| rest.next_if_eq(packet).is_none());
        let gone: Option<Vec<u32>> = gone.map(|packet| words(packet)[2].parse().ok()).collect();
        if gone != Some(self.handles()) {
            return self.wrong("the handles of what went come back, in order");
        }
        Ok(())
    }

    /// What it does after the same step.
    fn check_again(&self) -> Result<(), Wrong> {
        if !self.handles().is_empty() {
            return self.wrong("no handle comes back the second time");
        }
        if self.before != self.after {
            return self.wrong("nothing goes the second time");
        }
        Ok(())
    }
}

// ---- stretches

impl<'a> Stretch<'a> {
    /// Of the lines from a `new` on. None: they do not end so.
    fn of(calls: &'a [Call<'a>]) -> Result<Option<Stretch<'a>>, Wrong> {
        let is_listing = |three: &[Call]| three.iter().map(|call| call.line).eq(LISTING.map(str::as_bytes));
        // From the back: each listing, and the step in front of it.
        let (mut listings, mut steps, mut end) = (Vec::new(), Vec::new(), calls.len());
        loop {
            let shows = run_of(calls, end, |kind| matches!(kind, Kind::Shows));
            let Some(place) = calls[shows..end].windows(3).position(is_listing) else { break };
            listings.push(&calls[shows + place..]);
            let clears = run_of(calls, shows, |kind| matches!(kind, Kind::Clears(_)));
            let Some(what) = step_of(&calls[clears..shows]) else { break };
            steps.push((clears, shows, what));
            end = clears;
        }
        // No listing in front of the first.
        steps.truncate(listings.len().saturating_sub(1));
        let (Some((_, last, _)), Some((first, _, _))) = (steps.first(), steps.last()) else { return Ok(None) };
        let (front, back) = (&calls[..*first], &calls[*last..]);
        let steps = steps.iter().zip(listings.windows(2)).rev().map(|((from, upto, what), around)| {
            let calls = &calls[*from..*upto];
            let outcomes = calls.iter().map(Call::outcome).collect::<Result<_, _>>()?;
            Ok(Step { calls, what: *what, outcomes, before: listing(around[1])?, after: listing(around[0])? })
        });
        Ok(Some(Stretch { front, steps: steps.collect::<Result<_, _>>()?, back }))
    }

    /// The step here that has the lines of the other's step `i`. If several steps have these lines, the first here is for the first there, the
    /// second for the second, and so on.
    fn step_like(&self, other: &Stretch, i: usize) -> Option<&Step<'a>> {
        let step = &other.steps[i];
        let earlier = other.steps[..i].iter().filter(|s| s.is_like(step)).count();
        self.steps.iter().filter(|s| s.is_like(step)).nth(earlier)
    }

    /// Whether both have the same lines around their steps, and the same steps, all of interfaces, in another order.
    fn is_pair(&self, other: &Stretch) -> bool {
        let around = same_lines(self.front, other.front) && same_lines(self.back, other.back);
        let of_interfaces = !self.steps.iter().any(Step::is_of_orphans);
        let alike = self.steps.len() == other.steps.len() && (0..other.steps.len()).all(|i| self.step_like(other, i).is_some());
        let in_one_order = self.steps.iter().zip(&other.steps).all(|(step, there)| step.is_like(there));
        around && of_interfaces && alike && !in_one_order
    }

    /// How often each handle comes back.
    fn counted(&self) -> BTreeMap<u32, u64> {
        let mut counted = BTreeMap::new();
        self.steps.iter().flat_map(Step::handles).for_each(|handle| *counted.entry(handle).or_default() += 1);
        counted
    }

    /// Held to the stretch that it is a pair with.
    fn check_pair(&self, other: &Stretch) -> Result<(), Wrong> {
        let alike = |calls: &[Call], others: &[Call], why: &str| match calls.iter().zip(others).find(|(a, b)| a.answer != b.answer) {
            Some((call, _)) => Err((call.at, why.to_string())),
            None => Ok(()),
        };
        alike(self.front, other.front, "the two are no copies of one state")?;
        for (i, step) in self.steps.iter().enumerate() {
            let like = other.step_like(self, i).expect("a pair");
            if step.numbers() != like.numbers() {
                return step.wrong("another outcome than in the other order");
            }
            let alone = self.steps.iter().filter(|s| s.what == step.what).count() == 1;
            if alone && step.outcomes != like.outcomes {
                return step.wrong("other handles than in the other order");
            }
        }
        if self.counted() != other.counted() {
            return Err((self.steps[0].calls[0].at, "a handle comes back more often than in the other order, or less".into()));
        }
        alike(self.back, other.back, "it ends otherwise than in the other order")
    }

    /// The steps that repeat an earlier one, each with the last before it that has the same lines. A refused step is left out. For `orphans` only
    /// the step right before it counts.
    fn again(&self) -> impl Iterator<Item = (&Step<'a>, &Step<'a>)> {
        self.steps.iter().enumerate().filter(|(_, step)| !step.is_refused()).filter_map(|(i, step)| {
            let earlier = self.steps[..i].iter().rposition(|s| s.is_like(step))?;
            (!step.is_of_orphans() || earlier + 1 == i).then(|| (step, &self.steps[earlier]))
        })
    }

    fn check(&self) -> Result<(), Wrong> {
        self.again().try_for_each(|(step, _)| step.check_again())?;
        self.steps.iter().try_for_each(Step::check)
    }

    // ---- rules

    /// What there is of the rules `calls.orders-*` in one of a pair.
    fn mark_pair(&self) {
        // Of how many interfaces there is such a step.
        let interfaces =
            |is_such: &dyn Fn(&Step) -> bool| self.steps.iter().filter(|s| is_such(s)).map(|s| s.what).collect::<BTreeSet<What>>().len();
        if interfaces(&|s| !s.has("off") && s.before.cache != s.after.cache) > 1 {
            mark!("calls.orders-clear");
        }
        if interfaces(&|s| !s.has("off") && s.before.queue != s.after.queue) > 1 {
            mark!("calls.orders-purge");
        }
        if interfaces(&|s| s.has("off") && s.takes()) > 1 {
            mark!("calls.orders-off");
        }
        let keeps = |s: &Step| s.has("off") && !s.takes() && s.after.cache.iter().chain(&s.after.queue).any(|entry| s.is_own(entry));
        if self.steps.iter().any(|s| s.has("off") && s.takes()) && self.steps.iter().any(keeps) {
            mark!("calls.orders-off-one");
        }
        let (first, last) = (&self.steps[0].before, &self.steps[self.steps.len() - 1].after);
        if apart(&first.cache, &last.cache) || apart(&first.queue, &last.queue) {
            mark!("calls.orders-keep-order");
        }
        if first.cache.len() == model::NEIGHBOURS && first.cache != last.cache {
            mark!("calls.orders-full-cache");
        }
        if first.queue.len() == model::PACKETS && first.queue != last.queue {
            mark!("calls.orders-full-queue");
        }
        if interfaces(&|s| s.takes()) == model::IFACES {
            mark!("calls.orders-four");
        }
        if self.counted().keys().any(|handle| interfaces(&|s| s.handles().contains(handle)) > 1) {
            mark!("calls.orders-same-handle");
        }
        let takes = self.steps.iter().any(Step::takes);
        if takes && interfaces(&|_| true) == 1 {
            mark!("calls.orders-same-interface-two-ways");
        }
        match self.steps.iter().filter(|s| s.is_refused()).count() {
            0 => {}
            all if all == self.steps.len() => mark!("calls.orders-both-7"),
            _ if takes => mark!("calls.orders-one-7"),
            _ => {}
        }
    }

    fn mark_again(&self) {
        for (_, earlier) in self.again().filter(|(_, earlier)| earlier.takes()) {
            match earlier.what {
                What::Interface(_) => mark!("calls.orders-twice"),
                What::Orphans => mark!("calls.orders-orphans-twice"),
            }
        }
    }
}

/// Orphans purged again, no packet pushed between, and some come back: they waited the first time, so the cache is another.
fn mark_two_caches(calls: &[Call]) {
    let mut purged = false;
    for call in calls {
        match fields(call.line)[..] {
            ["push" | "turn" | "run", ..] => purged = false,
            ["orphans"] => {
                if purged && call.outcome().is_ok_and(|outcome| outcome != Ok(Vec::new())) {
                    mark!("calls.orders-orphans-two-caches");
                }
                purged = true;
            }
            _ => {}
        }
    }
}

/// Holds the answers of one side to the request, and marks the rules `calls.orders-*` of what holds.
pub fn check<L: AsRef<[u8]>, A: AsRef<str>>(lines: &[L], answers: &[A]) -> Result<Seen, Wrong> {
    let both = lines.iter().zip(answers).enumerate();
    let calls: Vec<Call> = both.map(|(at, (line, answer))| Call { at, line: line.as_ref(), answer: answer.as_ref() }).collect();
    let mut begins: Vec<usize> = calls.iter().filter(|call| call.is_new()).map(|call| call.at).collect();
    begins.push(calls.len());
    let (mut seen, mut earlier) = (Seen::default(), None::<Stretch>);
    for ends in begins.windows(2) {
        let calls = &calls[ends[0]..ends[1]];
        let stretch = Stretch::of(calls)?;
        if let Some(stretch) = &stretch {
            let pair = earlier.as_ref().filter(|earlier| stretch.is_pair(earlier));
            pair.map_or(Ok(()), |earlier| stretch.check_pair(earlier))?;
            stretch.check()?;
            if pair.is_some() {
                stretch.mark_pair();
                seen.pairs += 1;
            }
            stretch.mark_again();
            let (orphans, twice): (Vec<_>, Vec<_>) = stretch.again().partition(|(step, _)| step.is_of_orphans());
            seen += Seen { pairs: 0, twice: twice.len() as u64, orphans_twice: orphans.len() as u64 };
        }
        mark_two_caches(calls);
        earlier = stretch;
    }
    Ok(seen)
}

#[cfg(test)]
mod tests;

//! Request 2026-10: what became of the packets of a handle, counted from call lines and their answers alone. At each listing of the queue, its pushes
//! must equal the times it was released, dropped as oldest, purged as orphan and purged with its interface, and the times it still waits.

use std::collections::{BTreeMap, BTreeSet};
use std::iter::Peekable;
use std::str::{FromStr, SplitWhitespace};

type Words<'a> = Peekable<SplitWhitespace<'a>>;

/// The five counts of a handle.
#[derive(Debug, Default, Clone, Copy)]
struct Five {
    pushed: u64,
    released: u64,
    oldest: u64,
    orphan: u64,
    with_iface: u64,
}

/// The counts of each handle since the last `new`.
#[derive(Default)]
pub struct Counts(BTreeMap<u32, Five>);

/// Whether this word comes next; then it is passed over.
fn after(words: &mut Words, word: &str) -> bool {
    words.next_if_eq(&word).is_some()
}

/// Past a word that must come next.
fn past(words: &mut Words, word: &str) -> Option<()> {
    after(words, word).then_some(())
}

fn end(words: &mut Words) -> Option<()> {
    words.peek().is_none().then_some(())
}

fn number<T: FromStr>(words: &mut Words) -> Option<T> {
    words.next()?.parse().ok()
}

/// A count, and so many handles.
fn handles(words: &mut Words) -> Option<Vec<u32>> {
    let count: usize = number(words)?;
    (0..count).map(|_| number(words)).collect()
}

/// What a call of the queue answers: `refused N`, and then no handle, or `dropped COUNT HANDLE..`.
fn dropped(words: &mut Words) -> Option<Option<Vec<u32>>> {
    let handed = match after(words, "refused") {
        true => number::<u32>(words).map(|_| None)?,
        false => Some(past(words, "dropped").and_then(|()| handles(words))?),
    };
    end(words)?;
    Some(handed)
}

/// The entries of a list.
pub(crate) fn entries(list: &str) -> Option<Vec<&str>> {
    let mut entries = list.split("; ");
    let count: usize = entries.next()?.parse().ok()?;
    let entries: Vec<&str> = entries.collect();
    (entries.len() == count).then_some(entries)
}

/// The handle of each input that is a packet, of the words behind what a turn or a run begins with.
fn packets(words: &mut Words) -> Option<Vec<Option<u32>>> {
    let mut packets = Vec::new();
    while words.next().is_some() {
        packets.push(match words.next()? {
            "packet" => {
                words.next()?;
                Some(number(words)?)
            }
            "advert" | "answer" => {
                words.nth(1)?;
                None
            }
            _ => None,
        });
    }
    Some(packets)
}

impl Counts {
    fn of(&mut self, handle: u32) -> &mut Five {
        self.0.entry(handle).or_default()
    }

    fn push(&mut self, handle: u32, dropped: Vec<u32>) {
        self.of(handle).pushed += 1;
        dropped.into_iter().for_each(|h| self.of(h).oldest += 1);
    }

    /// What a turn of the main loop reports. A packet is pushed, or sent at once and then ready without having waited; what else is ready
    /// was released.
    fn turn(&mut self, packet: Option<u32>, report: &mut Words) -> Option<()> {
        if after(report, "wait") || after(report, "solicit") {
            past(report, "dropped")?;
            let dropped = handles(report)?;
            self.push(packet?, dropped);
        }
        while report.next()? != "ready" {}
        let ready = handles(report)?;
        if packet.is_none() {
            ready.into_iter().for_each(|h| self.of(h).released += 1);
        }
        past(report, "dropped")?;
        handles(report)?.into_iter().for_each(|h| self.of(h).orphan += 1);
        Some(())
    }

    /// What a line and its answer add. None: they do not read.
    fn add(&mut self, line: &str, answer: &str) -> Option<()> {
        let (mut line, mut words) = (line.split_whitespace().peekable(), answer.split_whitespace().peekable());
        match line.next()? {
            "new" => *self = Counts::default(),
            "push" => {
                if let Some(dropped) = dropped(&mut words)? {
                    self.push(line.last()?.parse().ok()?, dropped)
                }
            }
            "release" => match words.next()? {
                "handle" => self.of(number(&mut words)?).released += 1,
                "nothing" | "refused" => {}
                _ => return None,
            },
            "orphans" => dropped(&mut words)??.into_iter().for_each(|h| self.of(h).orphan += 1),
            "purge" | "off" => dropped(&mut words)?.into_iter().flatten().for_each(|h| self.of(h).with_iface += 1),
            "turn" => {
                line.next()?;
                self.turn(*packets(&mut line)?.first()?, &mut words)?;
            }
            "run" => {
                line.nth(2)?;
                let reports = answer.split(" | ").skip(1).filter(|r| !r.starts_with("wake "));
                for (packet, report) in packets(&mut line)?.into_iter().zip(reports) {
                    self.turn(packet, &mut report.split_whitespace().peekable())?;
                }
            }
            _ => {}
        }
        Some(())
    }

    /// Whether the counts of every handle add up, given what waits.
    fn add_up(&self, listing: &str) -> Result<(), String> {
        let unread = || "a listing that does not read".to_string();
        let mut waits: BTreeMap<u32, u64> = BTreeMap::new();
        for packet in entries(listing).ok_or_else(unread)? {
            let handle = packet.rsplit(' ').next().and_then(|h| h.parse().ok()).ok_or_else(unread)?;
            *waits.entry(handle).or_default() += 1;
        }
        let all: BTreeSet<u32> = self.0.keys().chain(waits.keys()).copied().collect();
        for handle in all {
            let five = self.0.get(&handle).copied().unwrap_or_default();
            let waits = waits.get(&handle).copied().unwrap_or_default();
            if five.pushed != five.released + five.oldest + five.orphan + five.with_iface + waits {
                return Err(format!("the counts of handle {handle} do not add up: {five:?}, and {waits} wait"));
            }
        }
        Ok(())
    }

    fn take(&mut self, line: &[u8], answer: &str) -> Result<(), String> {
        match line {
            _ if answer == "bad line" => Ok(()),
            b"queue" => self.add_up(answer),
            _ => self.add(&String::from_utf8_lossy(line), answer).ok_or("an answer that does not read".into()),
        }
    }
}

/// The first line, from 0, at which the counts of these answers do not add up.
pub fn check<L: AsRef<[u8]>>(lines: &[L], answers: &[String]) -> Option<(usize, String)> {
    let mut counts = Counts::default();
    let mut both = lines.iter().zip(answers).enumerate();
    both.find_map(|(i, (line, answer))| counts.take(line.as_ref(), answer).err().map(|why| (i, why)))
}

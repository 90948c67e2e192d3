//! The main loop of a card (docs/ON-A-CARD.md), for interface 0 of any side: which call comes after what. The Rust has none of the kind that
//! could be compared, so it is put together here, once, of the calls that both sides have.

use crate::calls::{self, Addr, Event, Lookup, Mac, Polled, Refused, Side};
use model::mark;

/// The largest time that a call takes.
const LATEST: u64 = 1 << 62;
const LATE: Refused = 3;
/// The card's interface.
const CARD: u8 = 0;
/// Most bytes of the buffer that are lent, what it holds before, and how many of them are shown.
const LENT: u64 = 2048;
const BEFORE: u8 = 0xa5;
const SHOWN: usize = 16;

/// What wakes the card.
#[derive(Debug, Clone, PartialEq, Eq)]
pub enum Input {
    Timer,
    LinkUp,
    Advert(Addr, Vec<u8>),
    Answer(Addr, Mac),
    Packet(Addr, u32),
}

/// What an advertisement was answered.
#[derive(Debug, Clone, Copy, PartialEq, Eq)]
pub enum Heard {
    Ok,
    Off,
    Refused(Refused),
}

/// What is to be done at once. The packet that a push dropped goes with it.
#[derive(Debug, Clone, PartialEq, Eq)]
pub enum Action {
    Nothing,
    Heard(Heard),
    HeardFrom(Heard, Mac),
    Refused(Refused),
    Send(Mac),
    Wait(Option<u32>),
    Solicit(Option<u32>),
}

#[derive(Debug, Clone, PartialEq, Eq)]
pub struct Report {
    pub action: Action,
    pub ready: Vec<u32>,
    pub dropped: Vec<u32>,
    pub polled: Result<Polled, Refused>,
    pub events: Vec<Event>,
}

pub fn buffer(room: u64) -> Vec<u8> {
    vec![BEFORE; room.min(LENT) as usize]
}

/// What is printed behind the reports.
pub fn end(wake: Option<u64>, buffer: &[u8]) -> String {
    let shown = &buffer[..buffer.len().min(SHOWN)];
    format!("wake {} buffer {}", calls::time(wake), calls::hex(shown))
}

impl Heard {
    fn text(self) -> String {
        match self {
            Heard::Ok => "heard ok".into(),
            Heard::Off => "heard off".into(),
            Heard::Refused(number) => format!("heard {}", calls::refused(number)),
        }
    }
}

impl Action {
    fn text(&self) -> String {
        match self {
            Action::Nothing => "nothing".into(),
            Action::Heard(heard) => heard.text(),
            Action::HeardFrom(heard, mac) => format!("{} from {}", heard.text(), calls::hex(mac)),
            Action::Refused(number) => calls::refused(*number),
            Action::Send(mac) => format!("send {}", calls::hex(mac)),
            Action::Wait(dropped) => format!("wait {}", calls::handles(dropped.as_slice())),
            Action::Solicit(dropped) => format!("solicit {}", calls::handles(dropped.as_slice())),
        }
    }
}

impl Report {
    pub fn text(&self) -> String {
        let mut ready = format!("ready {}", self.ready.len());
        for handle in &self.ready {
            ready += &format!(" {handle}");
        }
        let polled = match &self.polled {
            Ok(Polled::Off) => "off".into(),
            Ok(Polled::Nothing) => "nothing".into(),
            Ok(Polled::NoRoom) => "noroom".into(),
            Ok(Polled::Solicit(_)) => "solicit".into(),
            Err(number) => calls::refused(*number),
        };
        let (dropped, events) = (calls::handles(&self.dropped), calls::events(self.events.clone()));
        format!("{} {ready} {dropped} poll {polled} events {events}", self.action.text())
    }
}

/// All packets that wait for a neighbour, oldest first.
fn release_all(side: &mut dyn Side, addr: Addr) -> Vec<u32> {
    let mut handles = Vec::new();
    while let Ok(Some(handle)) = side.release(CARD, addr) {
        handles.push(handle);
    }
    handles
}

/// "Found: sends; Pending: pushes; NotFound: pushes the handle, starts the resolution, and solicits".
fn send(side: &mut dyn Side, addr: Addr, handle: u32) -> (Action, Vec<u32>) {
    let known = match side.lookup(CARD, addr) {
        Ok(known) => known,
        Err(number) => return (Action::Refused(number), Vec::new()),
    };
    let push = |side: &mut dyn Side| side.push(CARD, addr, handle).expect("the card's own interface");
    match known {
        Lookup::Found(mac) => (Action::Send(mac), vec![handle]),
        Lookup::Pending => (Action::Wait(push(side)), Vec::new()),
        Lookup::NotFound => {
            let dropped = push(side);
            side.start(CARD, addr).expect("it was looked up");
            (Action::Solicit(dropped), Vec::new())
        }
    }
}

/// The answer of a neighbour that is neither known nor looked for is passed over.
fn learn(side: &mut dyn Side, addr: Addr, mac: Mac, now: u64) -> (Action, Vec<u32>) {
    match side.lookup(CARD, addr) {
        Err(number) => (Action::Refused(number), Vec::new()),
        Ok(Lookup::NotFound) => (Action::Nothing, Vec::new()),
        Ok(_) => match side.fill(CARD, addr, mac, now) {
            Err(number) => (Action::Refused(number), Vec::new()),
            Ok(()) => (Action::Send(mac), release_all(side, addr)),
        },
    }
}

/// "An advertisement whose sender is Found afterwards: releases that key".
fn hear(side: &mut dyn Side, source: Addr, message: &[u8], now: u64) -> (Action, Vec<u32>) {
    let heard = match side.advertise(CARD, source, now, message) {
        Ok(true) => Heard::Ok,
        Ok(false) => Heard::Off,
        Err(number) => Heard::Refused(number),
    };
    match side.lookup(CARD, source) {
        Ok(Lookup::Found(mac)) => (Action::HeardFrom(heard, mac), release_all(side, source)),
        _ => (Action::Heard(heard), Vec::new()),
    }
}

fn take(side: &mut dyn Side, now: u64, input: &Input) -> (Action, Vec<u32>) {
    if now > LATEST {
        return (Action::Refused(LATE), Vec::new());
    }
    match input {
        Input::Timer => (Action::Nothing, Vec::new()),
        Input::LinkUp => {
            side.restart(CARD).expect("the card's own interface");
            (Action::Nothing, Vec::new())
        }
        Input::Advert(source, message) => hear(side, *source, message, now),
        Input::Answer(addr, mac) => learn(side, *addr, *mac, now),
        Input::Packet(addr, handle) => send(side, *addr, *handle),
    }
}

/// What came is taken, then on one new clock: poll, sweep, sweep once more, and orphans are purged. The report, and until when the card may sleep.
pub fn turn(side: &mut dyn Side, now: u64, input: &Input, buffer: &mut [u8]) -> (Report, Option<u64>) {
    let (action, ready) = take(side, now, input);
    let mut report = Report {
        action,
        ready,
        dropped: Vec::new(),
        polled: Err(LATE),
        events: Vec::new(),
    };
    let mut wake = None;
    if now <= LATEST {
        let room = buffer.len() as u64;
        let (polled, polled_until) = side.poll(CARD, now, None, room).expect("the time is taken");
        if let Polled::Solicit(message) = &polled {
            buffer[..message.len()].copy_from_slice(message);
        }
        let (events, swept_until) = side.sweep(CARD, now, polled_until).answer.expect("the time is taken");
        let (again, settled_until) = side.sweep(CARD, now, swept_until).answer.expect("the time is taken");
        assert!(again.is_empty(), "a second sweep at the same time reports nothing");
        report.polled = Ok(polled);
        report.events = events;
        report.dropped = side.orphans();
        wake = settled_until;
    }
    if side.marks() {
        mark_turn(input, &report, wake);
    }
    (report, wake)
}

/// A turn for each input, as far as the budget goes. Without a turn the card may sleep as long as before.
pub fn run(
    side: &mut dyn Side,
    until: Option<u64>,
    inputs: &[(u64, Input)],
    buffer: &mut [u8],
    budget: u64,
) -> (Vec<Report>, Option<u64>) {
    let mut wake = until;
    let mut reports = Vec::new();
    for (now, input) in inputs {
        if reports.len() as u64 >= budget {
            break;
        }
        let (report, until) = turn(side, *now, input, buffer);
        reports.push(report);
        wake = until;
    }
    if side.marks() {
        match (reports.len(), inputs.len()) {
            (0, 0) => mark!("calls.run-no-input"),
            (n, m) if n < m => mark!("calls.run-budget"),
            (4, _) => mark!("calls.run-full-inbox"),
            _ => mark!("calls.run"),
        }
        if reports.is_empty() && until.is_some() {
            mark!("calls.run-keeps-deadline");
        }
    }
    (reports, wake)
}

fn mark_turn(input: &Input, report: &Report, wake: Option<u64>) {
    match (&report.action, input) {
        (Action::Nothing, Input::Timer) => mark!("calls.turn-timer"),
        (Action::Nothing, Input::LinkUp) => mark!("calls.turn-link-up"),
        (Action::Nothing, _) => mark!("calls.turn-answer-not-asked-for"),
        (Action::Heard(Heard::Ok), _) => mark!("calls.turn-heard"),
        (Action::Heard(Heard::Off), _) => mark!("calls.turn-heard-off"),
        (Action::Heard(Heard::Refused(_)), _) => mark!("calls.turn-heard-refused"),
        (Action::HeardFrom(Heard::Ok, _), _) => mark!("calls.turn-heard-from"),
        (Action::HeardFrom(Heard::Off, _), _) => mark!("calls.turn-heard-off-from"),
        (Action::HeardFrom(Heard::Refused(_), _), _) => mark!("calls.turn-heard-refused-from"),
        (Action::Refused(3), _) => mark!("calls.turn-3"),
        (Action::Refused(_), Input::Answer(..)) => mark!("calls.turn-answer-2"),
        (Action::Refused(_), _) => mark!("calls.turn-packet-2"),
        (Action::Send(_), Input::Answer(..)) => mark!("calls.turn-answered"),
        (Action::Send(_), _) => mark!("calls.turn-send"),
        (Action::Wait(None), _) => mark!("calls.turn-wait"),
        (Action::Wait(Some(_)), _) => mark!("calls.turn-wait-dropped"),
        (Action::Solicit(None), _) => mark!("calls.turn-solicit"),
        (Action::Solicit(Some(_)), _) => mark!("calls.turn-solicit-dropped"),
    }
    match (input, report.ready.len()) {
        (_, 0) => {}
        (Input::Advert(..), _) => mark!("calls.turn-heard-releases"),
        (Input::Answer(..), 1) => mark!("calls.turn-answer-releases"),
        (Input::Answer(..), _) => mark!("calls.turn-answer-releases-several"),
        _ => {}
    }
    match report.polled {
        Ok(Polled::Off) => mark!("calls.turn-poll-off"),
        Ok(Polled::Nothing) => mark!("calls.turn-poll-nothing"),
        Ok(Polled::NoRoom) => mark!("calls.turn-poll-no-room"),
        Ok(Polled::Solicit(_)) => mark!("calls.turn-poll-solicits"),
        Err(_) => mark!("calls.turn-poll-3"),
    }
    for event in &report.events {
        match event {
            Event::Retransmit(_) => mark!("calls.turn-retransmits"),
            Event::Failed(_) => mark!("calls.turn-fails"),
        }
    }
    match (report.dropped.len(), input) {
        (0, _) => {}
        (_, Input::Packet(..)) => mark!("calls.turn-packet-purges"),
        _ => mark!("calls.turn-purges"),
    }
    match wake {
        None => mark!("calls.turn-no-deadline"),
        Some(_) => mark!("calls.turn-deadline"),
    }
}

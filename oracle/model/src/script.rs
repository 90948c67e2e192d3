//! The event program's lines: read, carried out on the model, and the state written.

use crate::{Addr, Answer, Clock, End, LATEST, Mac, Model, Preferred, Probe, Sent, State, mark};

#[derive(Debug, Clone, PartialEq, Eq)]
pub enum Event {
    Up,
    Down,
    Poll,
    Ra(Addr, Vec<u8>),
    Start(Addr),
    Sweep,
    Fill(Addr, Mac),
    Remove(Addr),
    Off,
}

impl Event {
    /// The line without its time.
    pub fn line(&self) -> String {
        match self {
            Event::Up => "up".into(),
            Event::Down => "down".into(),
            Event::Poll => "poll".into(),
            Event::Ra(source, message) => {
                let digits: String = message.iter().map(|b| format!("{b:02x}")).collect();
                format!("ra {source:032x} {digits}")
            }
            Event::Start(addr) => format!("start {addr:032x}"),
            Event::Sweep => "sweep".into(),
            Event::Fill(addr, mac) => format!("fill {addr:032x} {mac:012x}"),
            Event::Remove(addr) => format!("remove {addr:032x}"),
            Event::Off => "off".into(),
        }
    }
}

/// The lines of an input. The last one may lack its newline.
fn lines(input: &[u8]) -> Vec<&[u8]> {
    let mut lines: Vec<&[u8]> = input.split(|b| *b == b'\n').collect();
    // After a newline at the very end there is no further line; an empty input has none.
    if lines.last().unwrap().is_empty() {
        lines.pop();
    } else {
        mark!("format.last-line-without-newline");
    }
    lines
}

fn number(word: &str) -> Option<u64> {
    if word.is_empty() || word.bytes().any(|b| !b.is_ascii_digit()) {
        return None;
    }
    let digits = word.trim_start_matches('0');
    if digits.len() < word.len() && word.len() > 1 {
        mark!("format.leading-zeros");
    }
    if digits.is_empty() {
        return Some(0);
    }
    let value: Option<u64> = digits.parse().ok();
    if value.is_none() {
        mark!("format.number-too-large");
    }
    value
}

/// Hexadecimal digits.
fn digits(word: &str) -> Option<&str> {
    if !word.bytes().all(|b| b.is_ascii_hexdigit()) {
        mark!("format.no-hexadecimal-digit");
        return None;
    }
    if word.bytes().any(|b| b.is_ascii_uppercase()) {
        mark!("format.upper-case");
    }
    Some(word)
}

fn hexadecimal(word: &str, count: usize) -> Option<u128> {
    let word = digits(word)?;
    if word.len() != count {
        mark!("format.wrong-number-of-digits");
        return None;
    }
    u128::from_str_radix(word, 16).ok()
}

fn address(word: &str) -> Option<Addr> {
    hexadecimal(word, 32)
}

fn hardware(word: &str) -> Option<Mac> {
    hexadecimal(word, 12).map(|m| m as Mac)
}

fn message(word: &str) -> Option<Vec<u8>> {
    let word = digits(word)?;
    if word.len() < 2 || word.len() % 2 == 1 {
        mark!("format.odd-digits");
        return None;
    }
    let byte = |i: usize| u8::from_str_radix(&word[i..i + 2], 16).ok();
    (0..word.len()).step_by(2).map(byte).collect()
}

/// The words of a line: parted by one space, none at either end.
fn words(line: &[u8]) -> Option<Vec<&str>> {
    if line.len() > 4096 {
        mark!("format.line-too-long");
        return None;
    }
    if line.len() == 4096 {
        mark!("format.longest-line");
    }
    if line.is_empty() {
        mark!("format.empty-line");
        return None;
    }
    let Ok(line) = std::str::from_utf8(line) else {
        mark!("format.no-text");
        return None;
    };
    if line.contains('\r') {
        mark!("format.carriage-return");
    }
    let words: Vec<&str> = line.split(' ').collect();
    if words.iter().any(|w| w.is_empty()) {
        match (line.starts_with(' '), line.ends_with(' ')) {
            (true, _) => mark!("format.space-in-front"),
            (_, true) => mark!("format.space-at-end"),
            _ => mark!("format.two-spaces"),
        }
        return None;
    }
    Some(words)
}

pub fn event(words: &[&str]) -> Option<Event> {
    Some(match words {
        ["up"] => Event::Up,
        ["down"] => Event::Down,
        ["poll"] => Event::Poll,
        ["ra", source, text] => {
            let source = address(source)?;
            Event::Ra(source, message(text)?)
        }
        ["start", addr] => Event::Start(address(addr)?),
        ["sweep"] => Event::Sweep,
        ["fill", addr, mac] => {
            let addr = address(addr)?;
            Event::Fill(addr, hardware(mac)?)
        }
        ["remove", addr] => Event::Remove(address(addr)?),
        ["off"] => Event::Off,
        [] => {
            mark!("format.event-without-kind");
            return None;
        }
        ["up" | "down" | "poll" | "ra" | "start" | "sweep" | "fill" | "remove" | "off", ..] => {
            mark!("format.event-fields");
            return None;
        }
        _ => {
            mark!("format.event-kind");
            return None;
        }
    })
}

/// What the whole run prints.
pub fn run(input: &[u8]) -> String {
    let mut out = String::new();
    match program(input, &mut out) {
        Ok((model, last)) => list(&model, last, &mut out),
        Err(n) => {
            if !out.is_empty() {
                mark!("format.bad-line-after-output");
            }
            out += &format!("bad line {n}\n");
        }
    }
    out
}

/// Carry an input out, and keep the last time; the number of the bad line if there is one.
fn program(input: &[u8], out: &mut String) -> Result<(Model, u64), usize> {
    if input.is_empty() {
        mark!("format.empty-input");
        return Err(1);
    }
    let lines = lines(input);
    let mut at = 0;
    // The next line's words, and its number.
    let mut next = || -> Result<(usize, Vec<&str>), usize> {
        at += 1;
        match lines.get(at - 1) {
            None => {
                mark!("format.missing-line");
                Err(at)
            }
            Some(line) => Ok((at, words(line).ok_or(at)?)),
        }
    };

    let (n, mac) = next()?;
    let ["mac", mac] = mac[..] else {
        mark!("format.no-mac");
        return Err(n);
    };
    let mut model = Model::new(hardware(mac).ok_or(n)?);
    if !crate::is_unicast_mac(model.ifaces[0].mac) {
        mark!("format.group-mac");
    }

    let (n, count) = next()?;
    let ["addresses", count] = count[..] else {
        mark!("format.no-addresses");
        return Err(n);
    };
    let count = number(count).ok_or(n)?;
    if count > 8 {
        mark!("format.addresses-above-room");
    }
    for _ in 0..count {
        let (n, fields) = next()?;
        let [addr, len] = fields[..] else {
            mark!("format.address-fields");
            return Err(n);
        };
        let (addr, len) = (address(addr).ok_or(n)?, number(len).ok_or(n)?);
        match model.add_address(0, addr, len) {
            Answer::Done(()) => {
                if !crate::is_unicast(addr) {
                    mark!("format.address-not-unicast");
                }
            }
            Answer::Refused(14) => {
                mark!("format.address-14");
                return Err(n);
            }
            Answer::Refused(9) => {
                mark!("format.address-9");
                if model.ifaces[0].addrs.len() == 8 {
                    mark!("format.address-9-before-8");
                }
                return Err(n);
            }
            _ => {
                mark!("format.address-8");
                return Err(n);
            }
        }
    }

    let (n, count) = next()?;
    let ["events", count] = count[..] else {
        mark!("format.no-events");
        return Err(n);
    };
    let count = number(count).ok_or(n)?;
    let mut clock = 0;
    for _ in 0..count {
        let (n, fields) = next()?;
        let Some(time) = number(fields[0]) else {
            mark!("format.event-time");
            return Err(n);
        };
        let event = event(&fields[1..]).ok_or(n)?;
        if time < clock {
            mark!("time.goes-back");
        }
        clock = time;
        apply(&mut model, time, &event, out);
    }
    if lines.len() > at {
        mark!("format.surplus-line");
        return Err(at + 1);
    }
    Ok((model, clock))
}

/// Carry one event out, and print what it prints.
pub fn apply(model: &mut Model, time: u64, event: &Event, out: &mut String) {
    let mut clock = Clock::at(time);
    let off = model.ifaces[0].slaac.is_none();
    let answer = match event {
        Event::Up => {
            if model.ifaces[0].up {
                mark!("up.again");
            } else {
                mark!("up");
            }
            model.set_link(0, true);
            model.restart(0);
            Answer::Done(())
        }
        Event::Down => {
            mark!("down");
            model.set_link(0, false);
            Answer::Done(())
        }
        Event::Poll => match model.poll(0, &mut clock, true) {
            Answer::Done(sent) => {
                if let Sent::Solicit(message) = sent {
                    let digits: String = message.iter().map(|b| format!("{b:02x}")).collect();
                    out.push_str(&format!("{time} solicit {digits}\n"));
                }
                Answer::Done(())
            }
            Answer::Refused(n) => Answer::Refused(n),
            Answer::Off => Answer::Off,
        },
        Event::Ra(source, message) => model.advertise(0, time, *source, message),
        Event::Start(addr) => {
            if off {
                mark!("off.start-goes-on");
            }
            model.start(0, *addr)
        }
        Event::Sweep => {
            if off {
                mark!("off.sweep-goes-on");
            }
            match model.sweep(0, &mut clock).answer {
                Answer::Done(events) => {
                    for event in events {
                        match event {
                            Probe::Retransmit(addr) => out.push_str(&format!("{time} retransmit {addr:032x}\n")),
                            Probe::Failed(addr) => out.push_str(&format!("{time} failed {addr:032x}\n")),
                        }
                    }
                    Answer::Done(())
                }
                Answer::Refused(n) => Answer::Refused(n),
                Answer::Off => Answer::Off,
            }
        }
        Event::Fill(addr, mac) => {
            if off {
                mark!("off.fill-goes-on");
            }
            model.fill(0, *addr, *mac, time)
        }
        Event::Remove(addr) => {
            if off {
                mark!("off.remove-goes-on");
            }
            model.remove(0, *addr);
            Answer::Done(())
        }
        Event::Off => {
            model.turn_off(0);
            Answer::Done(())
        }
    };
    if time == LATEST {
        match event {
            Event::Poll => mark!("time.latest-poll"),
            Event::Ra(..) => mark!("time.latest-ra"),
            Event::Sweep => mark!("time.latest-sweep"),
            Event::Fill(..) => mark!("time.latest-fill"),
            _ => {}
        }
    }
    if time > LATEST {
        match event {
            Event::Up => mark!("time.ignored-up"),
            Event::Down => mark!("time.ignored-down"),
            Event::Start(_) => mark!("time.ignored-start"),
            Event::Remove(_) => mark!("time.ignored-remove"),
            Event::Off => mark!("time.ignored-off"),
            _ => {}
        }
        if time == LATEST + 1 {
            mark!("time.latest-plus-one");
        }
    }
    match answer {
        Answer::Done(()) => {}
        Answer::Off => out.push_str(&format!("{time} off\n")),
        Answer::Refused(n) => out.push_str(&format!("{time} refused {n}\n")),
    }
}

fn until(end: End) -> String {
    end.map_or("forever".to_string(), |t| t.to_string())
}

/// The state. (The last time is for the marks only.)
pub fn list(model: &Model, last: u64, out: &mut String) {
    let iface = &model.ifaces[0];
    let (prefixes, routers) = match &iface.slaac {
        Some(s) => (&s.prefixes[..], &s.routers[..]),
        None => {
            mark!("list.off");
            (&[][..], &[][..])
        }
    };
    out.push_str(&format!("prefixes {}\n", prefixes.len()));
    if prefixes.len() == crate::PREFIXES {
        mark!("list.prefixes-full");
    }
    for p in prefixes {
        if p.valid.is_some_and(|t| t <= last) {
            mark!("list.prefix-past-its-time");
        }
        if p.valid.is_none() {
            mark!("forever.listed-prefix");
        }
        out.push_str(&format!("{:032x} {} {} {}\n", p.addr, p.len, until(p.preferred), until(p.valid)));
    }
    out.push_str(&format!("routers {}\n", routers.len()));
    if routers.len() == crate::ROUTERS {
        mark!("list.routers-full");
    }
    for r in routers {
        if r.until <= last {
            mark!("list.router-past-its-time");
        }
        out.push_str(&format!("{:032x} {}\n", r.addr, r.until));
    }
    out.push_str(&format!("addresses {}\n", iface.addrs.len()));
    if iface.addrs.is_empty() {
        mark!("list.no-address");
    }
    if iface.addrs.len() == crate::ADDRESSES {
        mark!("list.addresses-full");
    }
    for a in &iface.addrs {
        let origin = if a.slaac { "slaac" } else { "static" };
        let preferred = match a.preferred {
            Preferred::Always => {
                mark!("list.address-static");
                "-".to_string()
            }
            Preferred::Until(t) => {
                mark!("list.address-until");
                if t.is_some_and(|t| t <= last) {
                    mark!("list.address-until-past");
                }
                if t.is_none() {
                    mark!("forever.listed-address");
                }
                until(t)
            }
            Preferred::Never => {
                mark!("list.address-never");
                "never".to_string()
            }
        };
        out.push_str(&format!("{:032x} {} {origin} {preferred}\n", a.addr, a.len));
    }
    out.push_str(&format!("routes {}\n", model.routes.len()));
    if model.routes.len() == crate::ROUTERS {
        mark!("list.two-routes");
    }
    for r in &model.routes {
        let origin = if r.slaac { "slaac" } else { "static" };
        let until = r.until.map_or("-".to_string(), |t| t.to_string());
        out.push_str(&format!("{:032x} {origin} {until}\n", r.via));
    }
    out.push_str(&format!("neighbors {}\n", model.neighbours.len()));
    if model.neighbours.len() == crate::NEIGHBOURS {
        mark!("list.neighbours-full");
    }
    for n in &model.neighbours {
        let rest = match n.state {
            State::Started => {
                mark!("list.started-as-incomplete");
                "incomplete - -".to_string()
            }
            State::Incomplete { .. } => {
                mark!("list.incomplete");
                "incomplete - -".to_string()
            }
            State::Reachable { mac, until } => {
                mark!("list.reachable");
                if until <= last {
                    mark!("list.reachable-past-its-time");
                }
                format!("reachable {mac:012x} {until}")
            }
            State::Stale { mac } => {
                mark!("list.stale");
                format!("stale {mac:012x} -")
            }
        };
        out.push_str(&format!("{:032x} {rest}\n", n.addr));
    }
}

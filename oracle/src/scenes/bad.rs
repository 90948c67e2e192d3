//! Lines that do not read, and the run that goes on.

use super::*;

/// The lines' fields.
#[derive(Clone, Copy, PartialEq)]
enum Field {
    Interface,
    Address,
    Mac,
    Bytes,
    Number,
    /// A time of the held clock: later than what `new` makes it.
    Later,
    Deadline,
    /// A number below 2^32.
    Word,
    /// A number below 2^8.
    Byte,
    /// This word.
    Fixed(&'static str),
}

use Field::*;

/// Each line, field by field.
const LINES: &[(&str, &[Field])] = &[
    ("new", &[Mac, Number]),
    ("expired", &[Later]),
    ("schedule", &[Later]),
    ("clock", &[Later, Deadline]),
    ("now", &[]),
    ("add", &[Number, Number]),
    ("kind", &[Address]),
    ("hardware", &[Mac]),
    ("form", &[Address, Byte, Mac]),
    ("formed", &[Address, Mac]),
    ("same", &[Mac, Mac]),
    ("advert", &[Bytes]),
    ("options", &[Bytes, Number]),
    ("next", &[Bytes, Number]),
    ("checksum", &[Address, Address, Bytes]),
    ("solicitation", &[Bytes, Address]),
    ("option", &[Bytes]),
    ("write", &[Bytes, Number, Fixed("1"), Mac]),
    ("write", &[Bytes, Number, Fixed("2"), Mac]),
    ("write", &[Bytes, Number, Fixed("3"), Byte, Byte, Word, Word, Address]),
    ("write", &[Bytes, Number, Fixed("5"), Word]),
    ("solicit", &[Bytes, Address, Mac]),
    ("lookup", &[Interface, Address]),
    ("start", &[Interface, Address]),
    ("fill", &[Interface, Address, Mac, Number]),
    ("insert", &[Interface, Address, Mac, Number]),
    ("get", &[Interface, Address]),
    ("remove", &[Interface, Address]),
    ("clear", &[Interface]),
    ("sweep", &[Interface, Number, Deadline]),
    ("cache", &[]),
    ("neighbors", &[]),
    ("push", &[Interface, Address, Word]),
    ("release", &[Interface, Address]),
    ("orphans", &[]),
    ("purge", &[Interface]),
    ("queue", &[]),
    ("address", &[Interface, Address, Number]),
    ("route", &[Interface, Address]),
    ("routeto", &[Interface, Address, Number, Address]),
    ("source", &[Interface]),
    ("destinations", &[]),
    ("link", &[Interface, Fixed("up")]),
    ("link", &[Interface, Fixed("down")]),
    ("restart", &[Interface]),
    ("on", &[Interface]),
    ("off", &[Interface]),
    ("ra", &[Interface, Address, Number, Bytes]),
    ("poll", &[Interface, Number, Deadline, Number]),
    ("slaac", &[Interface]),
    ("prefixes", &[Interface]),
    ("routers", &[Interface]),
    ("addresses", &[Interface]),
    ("routes", &[]),
    ("turn", &[Number, Number, Fixed("timer")]),
    ("turn", &[Number, Number, Fixed("linkup")]),
    ("turn", &[Number, Number, Fixed("advert"), Address, Bytes]),
    ("turn", &[Number, Number, Fixed("answer"), Address, Mac]),
    ("turn", &[Number, Number, Fixed("packet"), Address, Word]),
    ("run", &[Number, Number, Deadline]),
    ("run", &[Number, Number, Deadline, Number, Fixed("timer")]),
    ("run", &[Number, Number, Deadline, Number, Fixed("packet"), Address, Word, Number, Fixed("linkup")]),
    ("run", &[Number, Number, Deadline, Number, Fixed("answer"), Address, Mac, Number, Fixed("advert"), Address, Bytes]),
];

/// A field that reads.
fn good(field: Field) -> String {
    match field {
        Interface => "0".into(),
        Address => router(1),
        Mac => mac(1),
        Bytes => advert(0, 0, &[]),
        Number => "64".into(),
        Later => "99".into(),
        Deadline => "-".into(),
        Word => "9".into(),
        Byte => "64".into(),
        Fixed(word) => word.into(),
    }
}

/// Fields that do not.
fn bad(field: Field) -> Vec<String> {
    let numbers = lines!["-1", "+1", "1.0", "0x1", "1e3", "x", "1-", "18446744073709551616", "36893488147419103233"];
    let numbers_up_to = |most: u64| joined(&[numbers.clone(), lines!["-", most, u64::MAX]]);
    match field {
        Interface => numbers_up_to(256),
        Byte => numbers_up_to(256),
        Word => numbers_up_to(1 << 32),
        Number | Later => joined(&[numbers, lines!["-"]]),
        Deadline => joined(&[numbers, lines!["--", "-0", "none"]]),
        Address => {
            let good = router(1);
            lines![
                &good[..31],
                &good[..30],
                format!("{good}0"),
                format!("{good}00"),
                good.replacen('f', "g", 1),
                "fe80::1",
                "-",
                "0",
                format!("0x{}", &good[2..])
            ]
        }
        Mac => {
            let good = mac(1);
            lines![
                &good[..11],
                &good[..10],
                format!("{good}0"),
                format!("{good}00"),
                good.replacen('2', "g", 1),
                "02:00:00:00:00:01",
                "-",
                "0"
            ]
        }
        Bytes => lines!["8", "860", "8g", "g8", "0x86", "--", "-86", "86-", "86:00", "+6"],
        Fixed("timer") | Fixed("linkup") | Fixed("advert") | Fixed("answer") | Fixed("packet") => {
            lines!["Timer", "time", "timers", "up", "poll", "-", "0", "packets", "LINKUP"]
        }
        Fixed("up") | Fixed("down") => lines!["Up", "UP", "upp", "u", "1", "-", "dow", "downs"],
        Fixed(_) => lines!["0", "4", "6", "01", "+1", "11", "-", "x", "18446744073709551616"],
    }
}

/// Fields of another writing that read as well.
fn unusual(field: Field) -> Vec<String> {
    match field {
        Interface => lines!["00", "000000000000000000000000000003", "0255", "004"],
        Byte => lines!["00", "0255", "000000000000000000000000000064"],
        Word => lines!["00", "04294967295", "4294967295"],
        Number => lines!["00", "000000000000000000000000000005", "0000000018446744073709551615"],
        Later => lines!["0099", "000000000000000000000000000099"],
        Deadline => lines!["00", "000000000000000000000000000005"],
        Address => lines![router(0xabcdef).to_uppercase(), "FE8000000000000000000000000000aB"],
        Mac => lines!["0200000000AB", "0200000000aB"],
        Bytes => lines!["-", advert(0, 0, &[lladdr("0200000000ab")]).to_uppercase(), "8600000000000000000000000000000A"],
        Fixed(_) => Vec::new(),
    }
}

/// A line with one of its fields replaced.
fn line_with(word: &str, fields: &[Field], at: usize, field: &str) -> String {
    let all = fields.iter().enumerate().map(|(i, f)| if i == at { field.to_string() } else { good(*f) });
    std::iter::once(word.to_string()).chain(all).collect::<Vec<_>>().join(" ")
}

/// Each line as it should be.
fn good_lines() -> Vec<String> {
    LINES.iter().map(|(word, fields)| line_with(word, fields, usize::MAX, "")).collect()
}

/// A world with something in it, lines, and what it holds behind them.
fn bad_scene(name: &str, lines: Vec<String>) -> Scene {
    scene(format!("bad: {name}"), joined(&[lines![format!("start 0 {}", host(1)), format!("push 0 {} 1", host(1))], lines]))
}

/// Each good line, changed in one way; those that it leaves as they are are left out.
fn changed(name: &str, change: impl Fn(&str) -> String) -> Scene {
    let lines = good_lines().into_iter().filter_map(|line| Some(change(&line)).filter(|c| *c != line));
    bad_scene(name, lines.collect())
}

/// Lines that do not read, and the run that goes on.
pub fn bad_lines() -> Vec<Scene> {
    let mut cases = vec![
        scene("bad: none, each line as it should be", good_lines()),
        changed("a field too many", |l| format!("{l} 0")),
        changed("a field too few", |l| l.rsplit_once(' ').map_or("", |(front, _)| front).to_string()),
        together(
            "bad: two spaces",
            vec![
                changed("", |l| l.replacen(' ', "  ", 1)),
                changed("", |l| l.rsplit_once(' ').map_or(l.into(), |(front, last)| format!("{front}  {last}"))),
            ],
        ),
        together("bad: a space in front, at the end", vec![changed("", |l| format!(" {l}")), changed("", |l| format!("{l} "))]),
        together(
            "bad: a tab in place of the first space, at the end",
            vec![changed("", |l| l.replacen(' ', "\t", 1)), changed("", |l| format!("{l}\t"))],
        ),
        together("bad: a carriage return at the end, in front", vec![changed("", |l| format!("{l}\r")), changed("", |l| format!("\r{l}"))]),
        changed("a zero byte at the end", |l| format!("{l}\0")),
        changed("words in upper case", |l| {
            l.split(' ').enumerate().map(|(i, w)| if i == 0 { w.to_uppercase() } else { w.into() }).collect::<Vec<_>>().join(" ")
        }),
        changed("the word's first letter missing", |l| l[1..].to_string()),
        changed("a letter behind the word", |l| l.replacen(' ', "x ", 1)),
        changed("the word alone and a space", |l| format!("{} ", l.split(' ').next().unwrap())),
        bad_scene(
            "unknown words",
            lines![
                "",
                " ",
                "  ",
                "-",
                "0",
                "x",
                "help",
                "quit",
                "#",
                "# start",
                "news",
                "caches",
                "starts 0",
                "cach",
                "neighbours",
                "bad line",
                "ok",
                "refused 7",
                "start",
                "start 0",
                "\u{e9}",
                "\u{ff10}"
            ],
        ),
        bad_scene("empty lines", lines!["", "", "cache", "", "queue", ""]),
    ];
    for (name, kind) in [
        ("interfaces", Interface),
        ("addresses", Address),
        ("hardware addresses", Mac),
        ("bytes", Bytes),
        ("numbers", Number),
        ("times of the clock", Later),
        ("deadlines", Deadline),
        ("numbers of 32 bits", Word),
        ("numbers of 8 bits", Byte),
    ] {
        let (mut not, mut well) = (Vec::new(), Vec::new());
        for (word, fields) in LINES {
            for (at, _) in fields.iter().enumerate().filter(|(_, f)| **f == kind) {
                not.extend(bad(kind).iter().map(|field| line_with(word, fields, at, field)));
                // A new world would hide what the lines before it left.
                if *word != "new" {
                    well.extend(unusual(kind).iter().map(|field| line_with(word, fields, at, field)));
                }
            }
        }
        cases.push(bad_scene(&format!("{name} that do not read"), not));
        // The largest numbers are times that are refused, and room; nothing of it leaves the Rust's range.
        if !well.is_empty() {
            cases.push(scene(format!("bad: none, {name} written otherwise"), well));
        }
    }
    let mut lines = Vec::new();
    for (word, fields) in LINES {
        for (at, field) in fields.iter().enumerate() {
            if let Fixed(_) = field {
                lines.extend(bad(*field).iter().map(|f| line_with(word, fields, at, f)));
            }
        }
    }
    cases.push(bad_scene("an option's type, the link's state, an input's kind", lines));
    let new_lines = lines!["new 0200000000AB 000", "slaac 0", format!("address 0 {OWN} 64"), "link 0 up", "poll 0 0 - 16"];
    cases.push(bad_scene(
        "a new world that does not read leaves the old",
        joined(&[lines!["new", "new 020000000001", "new 020000000001 -", "new 020000000001 0 0", "cache", "queue"], new_lines]),
    ));
    cases.extend(long_lines());
    cases
}

/// The longest line, without its newline.
const LINE: usize = crate::events::LINE;

/// A sweep of this many bytes, by leading zeros.
fn long_sweep(bytes: usize, now: u64) -> String {
    let line = format!("sweep 0 {now} -");
    line.replacen("0 ", &format!("0 {}", "0".repeat(bytes - line.len())), 1)
}

/// Lines around the longest, far above it, and the end of the input.
fn long_lines() -> Vec<Scene> {
    let began = lines![new(), format!("start 0 {}", host(1))];
    let shown = state(&[0]);
    let text = |lines: &[Vec<String>]| (lines.concat().join("\n") + "\n").into_bytes();
    let raw = |name: &str, text: Vec<u8>| Scene { name: format!("bad: {name}"), text, outside: false };
    let mut cases = Vec::new();
    for bytes in [LINE - 1, LINE, LINE + 1, LINE + 2, 10_000, 70_000] {
        let lines = lines![long_sweep(bytes, 5), "cache", long_sweep(LINE, 6), "cache"];
        cases.push(raw(&format!("a line of {bytes} bytes, and what follows"), text(&[began.clone(), lines, shown.clone()])));
    }
    let spaces = |bytes: usize| " ".repeat(bytes);
    cases.push(raw("long lines of spaces, of letters, and a long message", {
        let message = format!("ra 0 {} 0 {}", router(1), advert(0, 9, &[]));
        let fits = (LINE - message.len()) / 16;
        let long = |options: usize| format!("{message}{}", "0e01000000000000".repeat(options));
        text(&[
            began.clone(),
            lines![spaces(LINE), spaces(LINE + 1), "x".repeat(LINE), "x".repeat(LINE + 1), long(fits), long(fits + 1)],
            shown.clone(),
        ])
    }));
    cases.push(raw(
        "a line too long whose end would read",
        text(&[began.clone(), lines![format!("{}clear 0", spaces(LINE + 1 - 7)), format!("{}clear 0", "0".repeat(LINE)), "cache"]]),
    ));
    let whole = text(&[began.clone(), shown.clone()]);
    let without = |text: Vec<u8>| text[..text.len() - 1].to_vec();
    cases.push(raw("none, the last line without its newline", without(text(&[began.clone(), lines!["cache"]]))));
    cases.push(raw("the last line bad and without its newline", without(text(&[began.clone(), lines!["cache", "cach"]]))));
    cases.push(raw("the last line a space, without its newline", without(text(&[began.clone(), lines!["cache", " "]]))));
    cases.push(raw("the last line a carriage return", [&text(&[began.clone(), lines!["cache"]])[..], b"\r"].concat()));
    cases.push(raw("the last line of 4096 bytes, without its newline", without(text(&[began.clone(), lines![long_sweep(LINE, 5)]]))));
    cases.push(raw("the last line of 4097 bytes, without its newline", without(text(&[began.clone(), lines![long_sweep(LINE + 1, 5)]]))));
    cases.push(raw("an empty line at the end", [&whole[..], b"\n"].concat()));
    cases.push(raw(
        "carriage returns in front of the newlines",
        String::from_utf8(whole.clone()).unwrap().replace('\n', "\r\n").into_bytes(),
    ));
    cases.push(raw("a carriage return in place of a newline", [&began.join("\r").into_bytes()[..], b"\ncache\n"].concat()));
    cases.push(raw("no line", Vec::new()));
    cases.push(raw("a newline alone", b"\n".to_vec()));
    let mut bytes = whole.clone();
    bytes.extend(b"cache\xff\n\xffcache\n\x00\n\x80\ncac\xc3\xa9he\ncache\x00\nqueue\n\x0bcache\n\x7f\n");
    cases.push(raw("bytes that are no text", bytes));
    cases
}

//! `record-calls FOLDER`: recorded call files `N.calls` and `N.answers`, answers by the real code. See README.md.

use std::collections::HashSet;
use std::fs;
use std::path::PathBuf;
use std::process::exit;

use oracle::calls::{self, Modelled, Real, Side};
use oracle::events::LINE;
use oracle::generate::{self, Reach};
use oracle::orders::{self, Seen};
use oracle::scenes::{self, Scene};
use oracle::{counts, folder};

const USAGE: &str = "record-calls FOLDER [-s SEED] [-n CANDIDATES]

Writes N.calls and N.answers into FOLDER (which must be new or empty), wrong answers for two of them, and prints what each is for.";

/// What a program that reads calls may hold of its input, and of its output.
const IN_BLOCK: usize = 69_632;
const OUT_BLOCK: usize = 65_536;
/// Sequences that are recorded whole.
const WHOLE: usize = 20;
/// The case that has each kind of wrong answers: a short one.
const SHORT: usize = 1;

fn stop(why: &str) -> ! {
    eprintln!("{why}");
    exit(1)
}

/// What the lines of a call file print, one by one.
fn answers(side: &mut dyn Side, text: &[u8]) -> Vec<String> {
    calls::split(text).into_iter().map(|line| calls::answer_bytes(side, line)).collect()
}

/// The model's answers, after the real code's were held against them: up to where a line leaves its range, and from the next `new` on. Also
/// the rule that is left first, and whether one is left other than that of the bits past a prefix length.
fn both(name: &str, text: &[u8]) -> (Vec<String>, Option<String>, bool) {
    let (mut real, mut modelled) = (Real::default(), Modelled::default());
    let (mut answers, mut outside, mut by_another) = (Vec::new(), None, false);
    for (i, line) in calls::split(text).into_iter().enumerate() {
        let by_model = calls::answer_bytes(&mut modelled, line);
        if !real.outside_by_another() || line.starts_with(b"new ") {
            let by_rust = calls::answer_bytes(&mut real, line);
            if real.outside().is_none() && by_rust != by_model {
                let line = String::from_utf8_lossy(line);
                stop(&format!("{name}: line {}: {line}\n- {by_rust}    (rust)\n+ {by_model}    (model)", i + 1))
            }
        }
        outside = outside.or(real.outside().map(String::from));
        by_another |= real.outside_by_another();
        answers.push(by_model);
    }
    (answers, outside, by_another)
}

/// How many bytes a call file prints.
fn printed(text: &[u8]) -> usize {
    answers(&mut Modelled::default(), text).iter().map(|a| a.len() + 1).sum()
}

fn text(lines: &[String]) -> Vec<u8> {
    (lines.join("\n") + "\n").into_bytes()
}

/// How much of both orders there is in a call file. Stops if the answers do not hold.
fn any_order(name: &str, text: &[u8], answers: &[String]) -> Seen {
    orders::check(&calls::split(text), answers).unwrap_or_else(|(line, why)| stop(&format!("{name}: line {}: {why}", line + 1)))
}

/// The rules that a call file fires.
fn fired(text: &[u8]) -> HashSet<usize> {
    model::marks::take();
    let answers = answers(&mut Modelled::default(), text);
    any_order("by the model", text, &answers);
    let fired = model::marks::take();
    (0..fired.len()).filter(|i| fired[*i] > 0).collect()
}

/// Lines left out, all but the first, while the rule fires.
fn shrink(lines: &[String], rule: usize) -> Vec<String> {
    let mut best = lines.to_vec();
    loop {
        let before = best.len();
        for i in (1..best.len()).rev() {
            let mut fewer = best.clone();
            fewer.remove(i);
            if fired(&text(&fewer)).contains(&rule) {
                best = fewer;
            }
        }
        if best.len() == before {
            return best;
        }
    }
}

struct Record {
    folder: PathBuf,
    number: usize,
    by_model: usize,
    bytes: usize,
    reached: HashSet<usize>,
    seen: Seen,
    /// The answers of `scenes::ANSWERS` that no case had so far: word and pattern.
    missing: Vec<(&'static str, &'static str)>,
}

impl Record {
    /// A case. Its answers are the real code's and the model's; the model's alone where it says so.
    fn put(&mut self, scene: &Scene) {
        let (answers, outside, _) = both(&scene.name, &scene.text);
        match &outside {
            Some(rule) if !scene.outside => stop(&format!("{}: {rule}", scene.name)),
            None if scene.outside => stop(&format!("{}: nothing of it is outside the Rust's range", scene.name)),
            _ => {}
        }
        if let Some((line, why)) = counts::check(&calls::split(&scene.text), &answers) {
            stop(&format!("{}: line {}: {why}", scene.name, line + 1))
        }
        self.seen += any_order(&scene.name, &scene.text, &answers);
        self.number += 1;
        self.by_model += usize::from(outside.is_some());
        self.write("calls", &scene.text);
        self.write("answers", answers.iter().flat_map(|a| [a, "\n"]).collect::<String>().as_bytes());
        self.reached.extend(fired(&scene.text));
        self.note(&scene.text, &answers);
        let by_model = outside.map_or(String::new(), |rule| format!(" (by the model: {rule})"));
        println!("{} {}{by_model}", self.number, scene.name);
    }

    fn write(&mut self, end: &str, bytes: &[u8]) {
        let path = self.folder.join(format!("{}.{end}", self.number));
        fs::write(&path, bytes).unwrap_or_else(|e| stop(&format!("{}: {e}", path.display())));
        self.bytes += bytes.len();
    }

    /// Notes which answers the lines had.
    fn note(&mut self, text: &[u8], answers: &[String]) {
        for (line, answer) in calls::split(text).into_iter().zip(answers) {
            let word = line.split(|b| *b == b' ').next().unwrap();
            self.missing.retain(|(w, pattern)| w.as_bytes() != word || !scenes::fits(pattern, answer));
        }
    }

    /// Wrong answers of the case written last: a byte changed, and if asked one missing and one more.
    fn spoil(&mut self, changed_at: impl Fn(&[u8]) -> usize, all: bool) {
        let path = self.folder.join(format!("{}.answers", self.number));
        let right = fs::read(&path).unwrap_or_else(|e| stop(&format!("{}: {e}", path.display())));
        let mut changed = right.clone();
        let at = changed_at(&right);
        changed[at] ^= 1;
        self.write("answers-changed", &changed);
        if all {
            self.write("answers-short", &right[..right.len() - 1]);
            self.write("answers-long", &[&right[..], b"\n"].concat());
        }
    }
}

/// Sequences one behind the other, until input and output are more than three blocks, with lines laid across the borders of the input's
/// blocks: between the two digits of a byte of a longest line, behind a newline, and in front of one.
fn large(seed: u64, first: u64) -> Vec<u8> {
    let mut number = first;
    let mut sequence = || loop {
        number += 1;
        let text = text(&generate::calls(seed, number, Reach::Inside));
        if both("large", &text).1.is_none() {
            return text;
        }
    };
    // A message of the longest line, and a line of any length by leading zeros.
    let head = "ra 0 fe800000000000000000000000000001 0 86000000000000090000000000000000";
    let options = (LINE - head.len()) / 16;
    let zeros = LINE - head.len() - 16 * options;
    let longest = head.replacen(" 0 86", &format!(" {} 86", "0".repeat(1 + zeros)), 1) + &"0501000000000500".repeat(options) + "\n";
    let padded = |bytes: usize| format!("sweep 3 {:0>width$} -\n", 7, width = bytes - "sweep 3  -\n".len());
    let mut all = sequence();
    let mut end = IN_BLOCK;
    for border in 0..3 {
        let in_front = [longest.len() - 1_002, longest.len(), longest.len() - 1][border];
        loop {
            let more = sequence();
            if all.len() + more.len() + in_front + 2 * 64 > end {
                break;
            }
            all.extend(more);
        }
        // The range begins anew, so that the times of the lines that follow are inside it.
        all.extend(b"new 020000000001 0\n");
        while end - all.len() - in_front > LINE + 1 {
            let left = end - all.len() - in_front;
            all.extend(padded((left / 2).min(LINE + 1)).bytes());
        }
        let left = end - all.len() - in_front;
        all.extend(padded(left).bytes());
        let begin = all.len();
        assert_eq!(begin + in_front, end);
        end = IN_BLOCK + if in_front < longest.len() { begin } else { end };
        all.extend(longest.bytes());
    }
    // Then with the cache shown behind each line, so that the output grows faster than the input.
    while all.len() <= 3 * IN_BLOCK || printed(&all) <= 3 * OUT_BLOCK {
        for line in calls::split(&sequence()) {
            all.extend([line, b"\ncache\n"].concat());
        }
    }
    all
}

fn main() {
    xarxa::world::quiet_expected_panics();
    let (folder, seed, candidates) = folder::arguments(USAGE, 20_000);
    let mut record = Record {
        folder,
        number: 0,
        by_model: 0,
        bytes: 0,
        reached: HashSet::new(),
        seen: Seen::default(),
        missing: scenes::ANSWERS.iter().flat_map(|(word, all)| all.iter().map(|a| (*word, *a))).collect(),
    };
    for scene in scenes::all() {
        record.put(&scene);
        if record.number == SHORT {
            record.spoil(|right| right.len() / 2, true);
        }
    }
    if !record.missing.is_empty() {
        for (word, pattern) in &record.missing {
            eprintln!("no case has {word} answered `{pattern}`");
        }
        exit(1)
    }

    // For each rule of single calls that no case fires, the smallest sequence that does, made smaller.
    let names = model::marks::names();
    let of_calls: Vec<usize> = (0..names.len()).filter(|i| names[*i].starts_with("calls.")).collect();
    let mut smallest: Vec<Option<Vec<String>>> = vec![None; names.len()];
    for n in 0..candidates {
        let lines = generate::calls(seed, n, Reach::Bits);
        for rule in fired(&text(&lines)) {
            if smallest[rule].as_ref().is_none_or(|s| lines.len() < s.len()) {
                smallest[rule] = Some(lines.clone());
            }
        }
    }
    for rule in &of_calls {
        if record.reached.contains(rule) {
            continue;
        }
        match &smallest[*rule] {
            Some(lines) => {
                record.put(&Scene { name: format!("rule: {}", names[*rule]), text: text(&shrink(lines, *rule)), outside: false })
            }
            None => stop(&format!("no sequence fires {}", names[*rule])),
        }
    }
    let by_rule = record.number;
    let mut number = candidates;
    while record.number < by_rule + WHOLE {
        number += 1;
        let text = text(&generate::calls(seed, number, Reach::Bits));
        let (_, outside, by_another) = both("by chance", &text);
        if !by_another {
            record.put(&Scene { name: "by chance".into(), text, outside: outside.is_some() });
        }
    }
    record.put(&Scene { name: "large: more than three blocks of input and of output".into(), text: large(seed, number), outside: false });
    record.spoil(|_| OUT_BLOCK / 2, false);
    let reached = of_calls.iter().filter(|i| record.reached.contains(i)).count();
    let total = record.reached.len();
    eprintln!(
        "{} cases, {} of them by the model, {} bytes; rules of single calls reached: {reached} of {}; of all: {total} of {}",
        record.number,
        record.by_model,
        record.bytes,
        of_calls.len(),
        names.len()
    );
    eprintln!("{}", record.seen);
}

//! Single calls: sequences by chance, call files of one's own, recorded ones.

use std::fs;
use std::io::Write;
use std::path::{Path, PathBuf};
use std::process::exit;
use std::time::Instant;

use oracle::calls::{Modelled, Real, answer_bytes, split};
use oracle::orders::{self, Seen};
use oracle::{counts, generate};

use super::{Other, Sum, files, print_rules, stop};

/// Sequences that go into one run of the program.
const BATCH: u64 = 2_000;
/// Among so many sequences there must be a pair of both orders.
const ENOUGH: u64 = 100;

pub struct Calls {
    /// The model in place of the Rust.
    pub wide: bool,
    pub other: Other,
}

/// The left side's answers, a line each. None: outside the Rust's range, from the line that leaves it to the next `new`.
struct Left {
    answers: Vec<Option<String>>,
    /// The line that left it first, from 1, and the rule.
    outside: Option<(usize, String)>,
}

/// What each side answers.
struct Sides {
    left: Left,
    modelled: Vec<String>,
    right: Vec<String>,
}

/// The same of some of the lines.
struct Answers<'a> {
    left: &'a [Option<String>],
    modelled: &'a [String],
    right: &'a [String],
}

/// Where two outputs part.
struct Difference {
    /// From 0.
    line: usize,
    left: String,
    right: String,
}

pub fn lines_of(input: &[u8]) -> Vec<Vec<u8>> {
    split(input).into_iter().map(|l| l.to_vec()).collect()
}

/// The `n`th generated sequence.
pub fn sequence(seed: u64, n: u64, wide: bool) -> Vec<Vec<u8>> {
    generate::sequence(seed, n, generate::Reach::of(wide)).into_iter().map(String::into_bytes).collect()
}

fn joined(lines: &[Vec<u8>]) -> Vec<u8> {
    let mut input = Vec::new();
    for line in lines {
        input.extend(line);
        input.push(b'\n');
    }
    input
}

fn rust(lines: &[Vec<u8>]) -> Left {
    let mut real = Real::default();
    let mut left = Left {
        answers: Vec::new(),
        outside: None,
    };
    for (i, line) in lines.iter().enumerate() {
        let answer = answer_bytes(&mut real, line);
        if let (None, Some(rule)) = (&left.outside, real.outside()) {
            left.outside = Some((i + 1, rule.to_string()));
        }
        left.answers.push(if real.outside().is_none() { Some(answer) } else { None });
    }
    left
}

/// The model's answers. It marks the rules.
fn model(lines: &[Vec<u8>]) -> Vec<String> {
    let mut modelled = Modelled::default();
    lines.iter().map(|line| answer_bytes(&mut modelled, line)).collect()
}

/// Holds the answers inside the Rust's range to what `orders.rs` asks.
fn check_inside(lines: &[Vec<u8>], answers: &[Option<String>]) -> Result<Seen, orders::Wrong> {
    let inside: Vec<usize> = (0..lines.len()).filter(|i| answers[*i].is_some()).collect();
    let lines: Vec<&Vec<u8>> = inside.iter().map(|i| &lines[*i]).collect();
    let answers: Vec<&String> = answers.iter().flatten().collect();
    orders::check(&lines, &answers).map_err(|(line, why)| (inside[line], why))
}

/// The answers of an output, each with its newline.
fn answers(output: &str) -> Vec<String> {
    let mut lines: Vec<String> = output.split('\n').map(|l| l.to_string()).collect();
    match lines.pop() {
        Some(last) if !last.is_empty() => lines.push(format!("{last} (no newline)")),
        _ => {}
    }
    lines
}

/// The first line that both sides answer and not alike.
fn parting(left: &[Option<String>], right: &[String]) -> Option<Difference> {
    let of = |side: Option<&String>| side.map_or("the end".into(), |text| format!("`{text}`"));
    for i in 0..left.len().max(right.len()) {
        let theirs = right.get(i);
        let ours = match left.get(i) {
            Some(None) => continue,
            Some(Some(answer)) => Some(answer),
            None => None,
        };
        if ours != theirs {
            return Some(Difference {
                line: i,
                left: of(ours),
                right: of(theirs),
            });
        }
    }
    None
}

fn text(line: &[u8]) -> String {
    String::from_utf8_lossy(line).chars().take(400).collect()
}

impl Calls {
    /// The names of the two sides.
    fn sides(&self) -> (&str, &str) {
        let left = if self.wide { "model" } else { "rust" };
        let right = match self.other {
            Other::Model => "model",
            Other::Rust => "rust",
            Other::Program(_) => "calls",
        };
        (left, right)
    }

    fn right(&self, input: &[u8], modelled: &[String]) -> Vec<String> {
        match &self.other {
            Other::Model => modelled.to_vec(),
            Other::Rust => unreachable!("only with --recorded"),
            Other::Program(program) => answers(&program.run(input)),
        }
    }

    /// Both sides on an input, and the model.
    fn both(&self, input: &[u8]) -> Sides {
        let lines = lines_of(input);
        let modelled = model(&lines);
        let right = self.right(input, &modelled);
        let left = if self.wide {
            Left {
                answers: modelled.iter().cloned().map(Some).collect(),
                outside: None,
            }
        } else {
            rust(&lines)
        };
        Sides { left, modelled, right }
    }

    fn difference(&self, input: &[u8]) -> Option<Difference> {
        let Sides { left, right, .. } = self.both(input);
        parting(&left.answers, &right)
    }

    /// Whether the five counts of each handle add up, of the right side's answers. Says where not.
    fn adds_up(&self, lines: &[Vec<u8>], answers: &[String], name: &str) -> bool {
        let fails = counts::check(lines, answers);
        if let Some((line, why)) = &fails {
            say!("{name}: line {}: {why}    ({})", line + 1, self.sides().1);
        }
        fails.is_none()
    }

    /// Holds the answers of each side to what `orders.rs` asks: the Rust's inside its range, the model's, and the program's. Gives how much of it
    /// there was on the right side. If a side fails, says which, where and why, and gives None.
    fn any_order(&self, lines: &[Vec<u8>], answers: &Answers, name: &str) -> Option<Seen> {
        let (l, r) = self.sides();
        let mut held = vec![(l, check_inside(lines, answers.left))];
        // If the model is not one of the two.
        if ![l, r].contains(&"model") {
            held.push(("model", orders::check(lines, answers.modelled)));
        }
        held.push((r, orders::check(lines, answers.right)));
        let mut seen = None;
        for (side, held) in held {
            match held {
                Ok(of_side) => seen = Some(of_side),
                Err((line, why)) => {
                    say!("{name}: line {}: {why}    ({side})", line + 1);
                    return None;
                }
            }
        }
        seen
    }

    /// Adds up the counts, and then holds the answers as `any_order` does. None if either fails; it has said where.
    fn holds(&self, lines: &[Vec<u8>], answers: &Answers, name: &str) -> Option<Seen> {
        if self.adds_up(lines, answers.right, name) { self.any_order(lines, answers, name) } else { None }
    }

    /// Fewer lines that still differ. The first, which is `new` as a rule, stays.
    fn shrink(&self, lines: &[Vec<u8>]) -> Vec<Vec<u8>> {
        let mut best = lines.to_vec();
        loop {
            let before = best.len();
            let mut i = best.len();
            while i > 1 {
                i -= 1;
                let mut fewer = best.clone();
                fewer.remove(i);
                if let Some(difference) = self.difference(&joined(&fewer)) {
                    fewer.truncate(difference.line + 1);
                    best = fewer;
                    i = i.min(best.len());
                }
            }
            if best.len() == before {
                return best;
            }
        }
    }

    /// Keeps what differs, and a smaller input that still does. Shows it, if asked.
    fn keep(&self, folder: &Path, name: &str, lines: &[Vec<u8>], show: bool) {
        let small = self.shrink(lines);
        for (end, lines) in [("calls", lines), ("small.calls", &small)] {
            let at = folder.join(format!("{name}.{end}"));
            if let Err(e) = fs::create_dir_all(folder).and_then(|_| fs::write(&at, joined(lines))) {
                stop(&format!("{}: {e}", at.display()));
            }
            if show {
                say!("kept: {}", at.display());
            }
        }
        if !show {
            return;
        }
        for line in &small {
            say!("  {}", text(line));
        }
        if let Some(difference) = self.difference(&joined(&small)) {
            let (l, r) = self.sides();
            say!("- {}    ({l})\n+ {}    ({r})", difference.left, difference.right);
        }
    }

    /// Sequences by chance, up to the first difference. The exit status.
    pub fn generated(&self, seed: u64, first: u64, count: u64, kept: &Path, all: bool, rules: bool) -> i32 {
        let mut fired = vec![0u64; model::marks::names().len()];
        let (mut equal, mut differ, mut outside, mut compared) = (0u64, 0u64, 0u64, 0u64);
        let mut seen = Seen::default();
        let began = Instant::now();
        let mut next = first;
        while next < first + count && (differ == 0 || all) {
            let upto = (next + BATCH).min(first + count);
            let sequences: Vec<Vec<Vec<u8>>> = (next..upto).map(|n| sequence(seed, n, self.wide)).collect();
            let lines = sequences.concat();
            model::marks::take();
            let Sides { left, modelled, right } = self.both(&joined(&lines));
            let mut at = 0;
            for (n, sequence) in (next..upto).zip(&sequences) {
                let end = at + sequence.len();
                let ours = &left.answers[at..end];
                let theirs = &right[at.min(right.len())..end.min(right.len())];
                outside += u64::from(ours.iter().any(|a| a.is_none()));
                compared += ours.iter().flatten().count() as u64;
                let answers = Answers { left: ours, modelled: &modelled[at..end], right: theirs };
                match parting(ours, theirs) {
                    None => match self.holds(sequence, &answers, &format!("sequence {seed} {n}")) {
                        Some(more) => {
                            equal += 1;
                            seen += more;
                        }
                        None => {
                            differ += 1;
                            if !all {
                                break;
                            }
                        }
                    },
                    Some(difference) => {
                        differ += 1;
                        self.report(kept, seed, n, sequence, &lines[..end], &difference);
                        if !all {
                            break;
                        }
                    }
                }
                at = end;
            }
            for (sum, n) in fired.iter_mut().zip(model::marks::take()) {
                *sum += u64::from(n);
            }
            if differ == 0 && right.len() > lines.len() {
                say!("{} lines more than there are calls: `{}`", right.len() - lines.len(), right[lines.len()]);
                differ += 1;
            }
            next = upto;
            eprint!("\r{} of {count} sequences \r", next - first);
        }
        let outcome = if differ == 0 { "all equal".into() } else { format!("{differ} differ") };
        let seconds = began.elapsed().as_secs_f64();
        say!("{} sequences: {compared} calls compared, {outcome}; {outside} sequences leave the Rust's range; {seconds:.1} s", equal + differ);
        say!("{seen}");
        match (differ, compared) {
            (1.., _) => 1,
            (0, 0) => 2,
            _ if equal >= ENOUGH && seen.pairs == 0 => {
                say!("no pair of both orders among them: that was not compared");
                2
            }
            _ => {
                print_rules(&fired, true, self.wide, rules);
                0
            }
        }
    }

    /// The Rust by itself, inside its range, held to what `orders.rs` asks: of generated sequences or of call files. Says how many fail. The exit
    /// status.
    pub fn alone(inputs: impl Iterator<Item = (String, Vec<Vec<u8>>)>) -> i32 {
        let (mut fail, mut all, mut seen) = (0u64, 0u64, Seen::default());
        for (name, lines) in inputs {
            all += 1;
            match check_inside(&lines, &rust(&lines).answers) {
                Ok(more) => seen += more,
                Err((line, why)) => {
                    fail += 1;
                    say!("{name}: line {}: {why}", line + 1);
                }
            }
        }
        say!("{seen}");
        say!("{fail} of {all} fail");
        match (fail, all) {
            (1.., _) => 1,
            (0, 0) => 2,
            _ => 0,
        }
    }

    fn report(&self, kept: &Path, seed: u64, n: u64, sequence: &[Vec<u8>], before: &[Vec<u8>], difference: &Difference) {
        let (l, r) = self.sides();
        let line = &sequence[difference.line];
        say!("sequence {seed} {n}, line {}: {}", difference.line + 1, text(line));
        say!("- {}    ({l})\n+ {}    ({r})", difference.left, difference.right);
        let name = format!("calls-{seed}-{n}");
        let upto = &sequence[..=difference.line];
        if self.difference(&joined(upto)).is_some() {
            self.keep(kept, &name, upto, true);
        } else {
            say!("equal by itself: it differs only behind the sequences before it");
            let path = kept.join(format!("{name}.calls"));
            if let Err(e) = fs::create_dir_all(kept).and_then(|_| fs::write(&path, joined(before))) {
                stop(&format!("{}: {e}", path.display()));
            }
            say!("kept: {}", path.display());
        }
    }

    /// Call files, a line each. The exit status.
    pub fn paths(&self, paths: &[PathBuf], keep: Option<&Path>, rules: bool) -> i32 {
        let mut sum = Sum::default();
        let mut seen = Seen::default();
        sum.fired.resize(model::marks::names().len(), 0);
        for path in paths {
            let named = files(path, true).unwrap_or_else(|e| {
                say!("unread {}: {e}", path.display());
                sum.unread += 1;
                Vec::new()
            });
            for file in named {
                let name = file.display();
                let input = match fs::read(&file) {
                    Ok(input) => input,
                    Err(e) => {
                        say!("unread {name}: {e}");
                        sum.unread += 1;
                        continue;
                    }
                };
                model::marks::take();
                let Sides { left, modelled, right } = self.both(&input);
                let lines = lines_of(&input);
                let answers = Answers { left: &left.answers, modelled: &modelled, right: &right };
                let parted = parting(&left.answers, &right);
                let held = if parted.is_none() { self.holds(&lines, &answers, &format!("differs {name}")) } else { None };
                seen += held.unwrap_or_default();
                for (sum, n) in sum.fired.iter_mut().zip(model::marks::take()) {
                    *sum += u64::from(n);
                }
                match (parted, left.outside) {
                    (Some(difference), _) => {
                        sum.differ += 1;
                        let (l, r) = self.sides();
                        let (ours, theirs) = (difference.left, difference.right);
                        say!("differs {name}: line {}: {l} {ours}, {r} {theirs}", difference.line + 1);
                        if let Some(folder) = keep {
                            let name = file.file_name().unwrap_or_default().to_string_lossy();
                            self.keep(folder, &name, &lines, false);
                        }
                    }
                    (None, _) if held.is_none() => sum.differ += 1,
                    (None, Some((line, rule))) => {
                        sum.outside += 1;
                        say!("outside {name}: {rule} (line {line})");
                    }
                    (None, None) => {
                        sum.equal += 1;
                        say!("equal {name}");
                    }
                }
            }
        }
        say!("{}", sum.line());
        if seen != Seen::default() {
            say!("{seen}");
        }
        if rules {
            print_rules(&sum.fired, true, self.wide, true);
        }
        sum.status()
    }

    /// The recorded answers N.answers on N.calls against the other side's. The Rust's count only inside its range. The exit status.
    pub fn recorded(&self, folder: &Path, all: bool) -> i32 {
        let (mut equal, mut differ, mut outside, mut n) = (0, 0, 0, 1);
        while let Ok(input) = fs::read(folder.join(format!("{n}.calls"))) {
            let recorded = fs::read(folder.join(format!("{n}.answers"))).unwrap_or_else(|e| stop(&format!("{n}.answers: {e}")));
            let recorded = answers(&String::from_utf8_lossy(&recorded));
            let lines = lines_of(&input);
            let (others, left_range) = match &self.other {
                Other::Rust => {
                    let left = rust(&lines);
                    (left.answers, left.outside.is_some())
                }
                _ => (self.right(&input, &model(&lines)).into_iter().map(Some).collect(), false),
            };
            outside += i32::from(left_range);
            match parting(&others, &recorded) {
                None => equal += 1,
                Some(difference) => {
                    differ += 1;
                    if differ == 1 || all {
                        let (ours, theirs) = (difference.right, difference.left);
                        say!("{n}.calls differs: line {}: recorded {ours}, {} {theirs}", difference.line + 1, self.sides().1);
                    }
                }
            }
            n += 1;
        }
        say!("{equal} recorded call files equal, {differ} differ, {outside} leave the Rust's range");
        match (differ, equal) {
            (1.., _) => 1,
            (0, 0) => 2,
            _ => 0,
        }
    }
}

//! Runs both sides on files, generated ones or given ones, and says where they differ. See README.md.

use std::fs;
use std::io::Write;
use std::path::{Path, PathBuf};
use std::process::{Command, exit};
use std::time::Instant;

use calls::Calls;
use oracle::{events, generate};

const USAGE: &str = "compare [OPTION..] PATH..           these files, and the files in these folders but the .out ones: one line a file
compare [OPTION..]                  generated files, up to the first difference
compare [OPTION..] --recorded FOLDER  the answers N.out of FOLDER against the other side's on N.in
compare [OPTION..] --calls [PATH..]   the same of single calls: call files, or sequences by chance, against crates/calls/out/calls
compare [OPTION..] --calls --recorded FOLDER  the answers N.answers of FOLDER against the other side's on N.calls

  --events PROGRAM  the program on the other side, in place of crates/events/out/events
  --calls-program PROGRAM  with --calls: the program on the other side, in place of crates/calls/out/calls
  --model           the model on the other side
  --rust            the Rust on the other side: with --recorded
  --alone           with --calls: the Rust by itself, held to both orders of clearing; how many sequences or files fail
  --wide            the model in place of the Rust, on files outside the Rust's range as well
  --rules           the rules that no file reached
  --keep FOLDER     where a file that differs is kept with a smaller one (oracle/kept; with PATH only if given)
  --all             go on after a difference, keeping each
  -n FILES          how many are generated (10000)
  -s SEED           of the generator (1)
  --first N         the number of the first one (0)

Exit status: 0 all that was compared is equal, 1 a difference, 2 usage, a path that can not be read, nothing compared, or no pair of both orders
in 100 sequences of calls or more.";

/// A line on standard output; if nobody reads it, there is nothing left to do.
macro_rules! say {
    ($($text:tt)*) => {
        if writeln!(std::io::stdout(), $($text)*).is_err() {
            exit(2)
        }
    };
}

mod calls;

fn stop(why: &str) -> ! {
    eprintln!("compare: {why}");
    exit(2)
}

fn usage() -> ! {
    eprintln!("{USAGE}");
    exit(2)
}

/// The other side.
enum Other {
    Model,
    Rust,
    Program(Program),
}

/// A command, and where the file that it gets as standard input is written.
struct Program {
    command: Vec<PathBuf>,
    scratch: PathBuf,
}

impl Program {
    fn new(command: Vec<PathBuf>) -> Program {
        let scratch = std::env::temp_dir().join(format!("oracle-compare-{}.in", std::process::id()));
        Program { command, scratch }
    }

    /// What it prints. What it says on descriptor 2 belongs to it, unless that only repeats the bad line.
    fn run(&self, input: &[u8]) -> String {
        let begun = fs::write(&self.scratch, input).and_then(|_| {
            let input = fs::File::open(&self.scratch)?;
            fs::remove_file(&self.scratch)?;
            Command::new(&self.command[0]).args(&self.command[1..]).stdin(input).output()
        });
        let run = begun.unwrap_or_else(|e| stop(&format!("{}: {e}", self.command.last().unwrap().display())));
        let mut out = String::from_utf8_lossy(&run.stdout).into_owned();
        let said = String::from_utf8_lossy(&run.stderr);
        let repeated = said.strip_prefix("events: ").is_some_and(|s| s.starts_with("bad line ") && out.ends_with(s));
        if !said.is_empty() && !repeated {
            out += &format!("(said {:?})\n", said.trim_end());
        }
        if !run.status.success() {
            out += &format!("(ended with {})\n", run.status);
        }
        out
    }
}

/// What both sides print, or the rule of the Rust's range that the file leaves.
type Both = Result<(String, String), String>;

struct Compare {
    wide: bool,
    other: Other,
}

impl Compare {
    fn both(&self, input: &[u8]) -> Both {
        self.both_with(input, model::script::run(input))
    }

    /// The same, given what the model says.
    fn both_with(&self, input: &[u8], modelled: String) -> Both {
        let left = if self.wide {
            modelled.clone()
        } else {
            let outcome = events::run(input);
            match outcome.outside {
                Some(rule) => return Err(rule),
                None => outcome.output,
            }
        };
        let right = match &self.other {
            Other::Model => modelled,
            Other::Rust => unreachable!("only with --recorded"),
            Other::Program(program) => program.run(input),
        };
        Ok((left, right))
    }

    fn differs(&self, input: &[u8]) -> bool {
        self.both(input).is_ok_and(|(l, r)| l != r)
    }

    /// The names of the two sides.
    fn sides(&self) -> (&str, &str) {
        let left = if self.wide { "model" } else { "rust" };
        let right = match self.other {
            Other::Model => "model",
            Other::Rust => "rust",
            Other::Program(_) => "events",
        };
        (left, right)
    }

    /// Keeps a file that differs, a smaller one that still does, and both outputs. Gives the smaller one.
    fn keep(&self, folder: &Path, name: &str, input: &[u8], left: &str, right: &str) -> Vec<u8> {
        let at = |end: &str| folder.join(format!("{name}.{end}"));
        let small = oracle::shrink::shrink(input, |i| self.differs(i));
        let (l, r) = self.sides();
        let files: [(&str, &[u8]); 4] = [("in", input), ("small.in", &small), (l, left.as_bytes()), (r, right.as_bytes())];
        for (end, bytes) in files {
            if let Err(e) = fs::create_dir_all(folder).and_then(|_| fs::write(at(end), bytes)) {
                stop(&format!("{}: {e}", at(end).display()));
            }
        }
        small
    }

    /// The same, and shows it.
    fn report(&self, folder: &Path, name: &str, input: &[u8], left: &str, right: &str) {
        let small = self.keep(folder, name, input, left, right);
        let at = folder.join(name);
        say!("\ndifference: {}.in (smallest found: {}.small.in)", at.display(), at.display());
        say!("{}", String::from_utf8_lossy(&small));
        if let Ok((left, right)) = self.both(&small) {
            let (l, r) = self.sides();
            show(&left, &right, l, r);
        }
    }
}

/// The lines that differ, with what is equal around them left out.
fn show(left: &str, right: &str, l: &str, r: &str) {
    let (a, b): (Vec<&str>, Vec<&str>) = (left.lines().collect(), right.lines().collect());
    let front = a.iter().zip(&b).take_while(|(x, y)| x == y).count();
    let back = a[front..]
        .iter()
        .rev()
        .zip(b[front..].iter().rev())
        .take_while(|(x, y)| x == y)
        .count();
    say!("({front} equal lines)");
    for line in &a[front..a.len() - back] {
        say!("- {line}    ({l})");
    }
    for line in &b[front..b.len() - back] {
        say!("+ {line}    ({r})");
    }
    say!("({back} equal lines)");
}

/// Where two outputs part, and the line there on each side.
fn place(left: &str, right: &str, l: &str, r: &str) -> String {
    let byte = left.bytes().zip(right.bytes()).take_while(|(x, y)| x == y).count();
    let line = left.as_bytes()[..byte].iter().filter(|b| **b == b'\n').count();
    let at = |text: &str| match text.split_inclusive('\n').nth(line) {
        Some(t) => format!("`{}`", t.trim_end_matches('\n').chars().take(160).collect::<String>()),
        None => "the end".to_string(),
    };
    format!("output line {}, byte {}: {l} {}, {r} {}", line + 1, byte + 1, at(left), at(right))
}

/// What came of the files so far.
#[derive(Default)]
struct Sum {
    equal: u64,
    differ: u64,
    outside: u64,
    unread: u64,
    bytes: usize,
    /// How often each rule fired.
    fired: Vec<u64>,
}

impl Sum {
    /// Both sides on a file. The model runs on each, whatever the other side is: it marks the rules.
    fn both(&mut self, compare: &Compare, input: &[u8]) -> Both {
        model::marks::take();
        let modelled = model::script::run(input);
        self.fired.resize(model::marks::names().len(), 0);
        for (sum, n) in self.fired.iter_mut().zip(model::marks::take()) {
            *sum += u64::from(n);
        }
        self.bytes += input.len();
        let both = compare.both_with(input, modelled);
        match &both {
            Err(_) => self.outside += 1,
            Ok((l, r)) if l == r => self.equal += 1,
            Ok(_) => self.differ += 1,
        }
        both
    }

    fn line(&self) -> String {
        let unread = if self.unread > 0 { format!(", {} unread", self.unread) } else { String::new() };
        format!("{} files equal, {} differ, {} outside the Rust's range{unread}", self.equal, self.differ, self.outside)
    }

    fn status(&self) -> i32 {
        match (self.differ, self.unread, self.equal) {
            (1.., _, _) => 1,
            (0, 0, 1..) => 0,
            _ => 2,
        }
    }
}

fn main() {
    xarxa::world::quiet_expected_panics();
    let root = Path::new(env!("CARGO_MANIFEST_DIR")).join("..");
    let (mut count, mut seed, mut first) = (10_000u64, 1u64, 0u64);
    let (mut program, mut calls_program, mut recorded, mut keep) = (None, None, None, None);
    let (mut use_model, mut use_rust, mut alone, mut wide, mut all, mut calls, mut rules) = (false, false, false, false, false, false, false);
    let mut paths = Vec::new();
    let mut args = std::env::args_os().skip(1);
    while let Some(arg) = args.next() {
        let mut value = || args.next().unwrap_or_else(|| usage());
        let mut number = || value().to_str().and_then(|s| s.parse().ok()).unwrap_or_else(|| usage());
        match arg.to_str().unwrap_or("") {
            "-n" => count = number(),
            "-s" => seed = number(),
            "--first" => first = number(),
            "--events" => program = Some(PathBuf::from(value())),
            "--calls-program" => calls_program = Some(PathBuf::from(value())),
            "--model" => use_model = true,
            "--rust" => use_rust = true,
            "--alone" => alone = true,
            "--wide" => wide = true,
            "--rules" => rules = true,
            "--all" => all = true,
            "--calls" => calls = true,
            "--recorded" => recorded = Some(PathBuf::from(value())),
            "--keep" => keep = Some(PathBuf::from(value())),
            "-h" | "--help" => {
                say!("{USAGE}");
                return;
            }
            a if a.starts_with('-') => usage(),
            _ => paths.push(PathBuf::from(arg)),
        }
    }
    let kept = keep.clone().unwrap_or_else(|| Path::new(env!("CARGO_MANIFEST_DIR")).join("kept"));
    if use_rust && recorded.is_none() || use_model && (wide || use_rust) {
        usage()
    }
    if alone {
        if !calls || wide || use_model || recorded.is_some() {
            usage()
        }
        exit(if paths.is_empty() {
            Calls::alone((first..first + count).map(|n| (format!("sequence {seed} {n}"), calls::sequence(seed, n, false))))
        } else {
            let named = paths.iter().flat_map(|path| files(path, true).unwrap_or_else(|e| stop(&format!("{}: {e}", path.display()))));
            let read = |file: &PathBuf| fs::read(file).unwrap_or_else(|e| stop(&format!("{}: {e}", file.display())));
            Calls::alone(named.map(|file| (file.display().to_string(), calls::lines_of(&read(&file)))))
        })
    }
    let root = root.canonicalize().unwrap_or(root);
    let (name, option, program) = match calls {
        true => ("calls", "--calls-program", calls_program),
        false => ("events", "--events", program),
    };
    let built = root.join("crates").join(name).join("out").join(name);
    let other = match program {
        _ if use_model => Other::Model,
        _ if use_rust => Other::Rust,
        Some(path) if !path.is_file() => stop(&format!("no program {}", path.display())),
        Some(path) => Other::Program(Program::new(vec![path.canonicalize().unwrap_or(path)])),
        None if built.is_file() => Other::Program(Program::new(vec![built])),
        None => stop(&format!(
            "crates/{name}/out/{name} is not built: `rt run` in crates/{name} builds it (or give {option} PROGRAM, or --model)"
        )),
    };
    if let Some(folder) = recorded {
        exit(match calls {
            true => Calls { wide, other }.recorded(&folder, all),
            false => compare_recorded(&folder, &other, all),
        })
    }
    let left = if wide { "the model" } else { "the Rust" };
    match &other {
        Other::Program(program) => eprintln!("{left} against {}", program.command.last().unwrap().display()),
        _ => eprintln!("{left} against the model"),
    }
    if calls {
        let compare = Calls { wide, other };
        exit(if paths.is_empty() {
            compare.generated(seed, first, count, &kept, all, rules)
        } else {
            compare.paths(&paths, keep.as_deref(), rules)
        })
    }
    let compare = Compare { wide, other };
    exit(if paths.is_empty() {
        compare_generated(&compare, seed, first, count, &kept, all, rules)
    } else {
        compare_paths(&compare, &paths, keep.as_deref(), rules)
    })
}

/// Generated files, up to the first difference. The exit status.
fn compare_generated(compare: &Compare, seed: u64, first: u64, count: u64, kept: &Path, all: bool, rules: bool) -> i32 {
    let mut sum = Sum::default();
    let began = Instant::now();
    let mut shown = Instant::now();
    for n in first..first + count {
        let input = generate::file(seed, n, generate::Reach::of(compare.wide));
        if let Ok((l, r)) = sum.both(compare, &input)
            && l != r
        {
            compare.report(kept, &format!("{seed}-{n}"), &input, &l, &r);
            if !all {
                break;
            }
        }
        if shown.elapsed().as_millis() > 1000 {
            shown = Instant::now();
            eprint!("\r{} of {count} files \r", n + 1 - first);
        }
    }
    say!("{}; {} bytes; {:.1} s", sum.line(), sum.bytes, began.elapsed().as_secs_f64());
    if sum.status() == 0 {
        print_rules(&sum.fired, false, compare.wide, rules);
    }
    sum.status()
}

/// Whether a file of a folder is answers, or the input of the other kind.
fn is_passed_over(file: &Path, calls: bool) -> bool {
    let end = file.extension().unwrap_or_default().to_string_lossy();
    let other = if calls { "in" } else { "calls" };
    end == "out" || end == other || end.starts_with("answers")
}

/// The files that a path names: itself, or those in the folder, by name, without the answers.
fn files(path: &Path, calls: bool) -> std::io::Result<Vec<PathBuf>> {
    if !fs::metadata(path)?.is_dir() {
        return Ok(vec![path.to_path_buf()]);
    }
    let mut files = Vec::new();
    for entry in fs::read_dir(path)? {
        let file = entry?.path();
        if !file.is_dir() && !is_passed_over(&file, calls) {
            files.push(file);
        }
    }
    files.sort();
    Ok(files)
}

/// One line for each file. The exit status.
fn compare_paths(compare: &Compare, paths: &[PathBuf], keep: Option<&Path>, rules: bool) -> i32 {
    let mut sum = Sum::default();
    for path in paths {
        let named = files(path, false).unwrap_or_else(|e| {
            say!("unread {}: {e}", path.display());
            sum.unread += 1;
            Vec::new()
        });
        for file in named {
            let name = file.display();
            let input = match fs::read(&file) {
                Ok(input) => input,
                Err(e) => {
                    say!("unread {name}: {e}");
                    sum.unread += 1;
                    continue;
                }
            };
            match sum.both(compare, &input) {
                Err(rule) => say!("outside {name}: {rule}"),
                Ok((l, r)) if l == r => say!("equal {name}"),
                Ok((l, r)) => {
                    let (left, right) = compare.sides();
                    say!("differs {name}: {}", place(&l, &r, left, right));
                    if let Some(folder) = keep {
                        let name = file.file_name().unwrap_or_default().to_string_lossy();
                        compare.keep(folder, &name, &input, &l, &r);
                    }
                }
            }
        }
    }
    say!("{}", sum.line());
    if rules {
        print_rules(&sum.fired, false, compare.wide, true);
    }
    sum.status()
}

/// How many rules fired, and if asked which did not: those of event files, or those of single calls. Some are outside the Rust's range.
fn print_rules(fired: &[u64], calls: bool, wide: bool, list: bool) {
    let outside = |name: &str| ["forever.", "bits.", "calls.wide-"].iter().any(|s| name.starts_with(s));
    let of_kind = |name: &str| name.starts_with("calls.") == calls && (wide || !outside(name));
    let times = |i: usize| fired.get(i).copied().unwrap_or(0);
    let rules: Vec<(&str, u64)> = model::marks::names()
        .iter()
        .enumerate()
        .filter(|(_, name)| of_kind(name))
        .map(|(i, name)| (*name, times(i)))
        .collect();
    say!("rules reached: {} of {}", rules.iter().filter(|r| r.1 > 0).count(), rules.len());
    for (name, _) in rules.iter().filter(|r| list && r.1 == 0) {
        say!("  not reached: {name}");
    }
}

/// The recorded answers against the other side's. The Rust is asked only inside its range. The exit status.
fn compare_recorded(folder: &Path, other: &Other, all: bool) -> i32 {
    let (mut equal, mut differ, mut outside, mut n) = (0, 0, 0, 1);
    while let Ok(input) = fs::read(folder.join(format!("{n}.in"))) {
        let left = fs::read(folder.join(format!("{n}.out"))).map(|b| String::from_utf8_lossy(&b).into_owned());
        let left = left.unwrap_or_else(|e| stop(&format!("{n}.out: {e}")));
        let right = match other {
            Other::Model => Some(model::script::run(&input)),
            Other::Program(program) => Some(program.run(&input)),
            Other::Rust => Some(events::run(&input)).filter(|o| o.outside.is_none()).map(|o| o.output),
        };
        match right {
            None => outside += 1,
            Some(right) if left == right => equal += 1,
            Some(right) => {
                differ += 1;
                if differ == 1 || all {
                    say!("{n}.in differs");
                    show(&left, &right, "recorded", "other");
                }
            }
        }
        n += 1;
    }
    say!("{equal} recorded cases equal, {differ} differ, {outside} outside the Rust's range");
    match (differ, equal) {
        (1.., _) => 1,
        (0, 0) => 2,
        _ => 0,
    }
}

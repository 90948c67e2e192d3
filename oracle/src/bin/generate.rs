//! `generate SEED NUMBER`: the file of that number on standard output. `generate SEED FIRST COUNT FOLDER`: files
//! `N.in` in a folder. With `--wide` in front, also files on which the Rust can not be compared. With `--calls` in front,
//! sequences of single calls, `N.calls`.

use std::io::Write;

fn main() {
    let mut args: Vec<String> = std::env::args().skip(1).collect();
    let (mut wide, mut calls) = (false, false);
    while let Some(option) = args.first().filter(|a| a.starts_with("--")) {
        match option.as_str() {
            "--wide" => wide = true,
            "--calls" => calls = true,
            _ => break,
        }
        args.remove(0);
    }
    let number = |i: usize| -> u64 {
        args.get(i).and_then(|a| a.parse().ok()).unwrap_or_else(|| {
            eprintln!("generate [--wide] [--calls] SEED NUMBER | generate [--wide] [--calls] SEED FIRST COUNT FOLDER");
            std::process::exit(2)
        })
    };
    let (seed, first) = (number(0), number(1));
    let reach = oracle::generate::Reach::of(wide);
    let made = |n: u64| match calls {
        true => (oracle::generate::sequence(seed, n, reach).join("\n") + "\n").into_bytes(),
        false => oracle::generate::file(seed, n, reach),
    };
    let end = if calls { "calls" } else { "in" };
    match args.get(3) {
        None => std::io::stdout().write_all(&made(first)).unwrap(),
        Some(folder) => {
            std::fs::create_dir_all(folder).unwrap();
            for n in first..first + number(2) {
                std::fs::write(format!("{folder}/{n}.{end}"), made(n)).unwrap();
            }
        }
    }
}

//! The arguments of a command that records: a folder that is new or empty, a seed, and how many candidates are looked at.

use std::fs;
use std::path::PathBuf;
use std::process::exit;

/// The folder, made; the seed; the candidates, so many if it is not said. Ends the command with `usage` if they do not read.
pub fn arguments(usage: &str, candidates: u64) -> (PathBuf, u64, u64) {
    let (mut folder, mut seed, mut candidates) = (None, 1u64, candidates);
    let mut args = std::env::args().skip(1);
    while let Some(arg) = args.next() {
        let mut number = || args.next().and_then(|a| a.parse().ok());
        let known = match arg.as_str() {
            "-s" => number().map(|n| seed = n),
            "-n" => number().map(|n| candidates = n),
            a if a.starts_with('-') => None,
            a => {
                folder = Some(PathBuf::from(a));
                Some(())
            }
        };
        if known.is_none() {
            eprintln!("{usage}");
            exit(2)
        }
    }
    let Some(folder) = folder else {
        eprintln!("{usage}");
        exit(2)
    };
    if folder.read_dir().is_ok_and(|mut d| d.next().is_some()) {
        eprintln!("{} is not empty", folder.display());
        exit(2)
    }
    fs::create_dir_all(&folder).unwrap();
    (folder, seed, candidates)
}

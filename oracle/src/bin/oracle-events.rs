//! Reads an event file on standard input and prints what document 01 says, with the state coming from the real code.
//! `--sources` names the real files that are compiled in, with their lines and SHA-256. Exit code 3: the file leaves the range in which the Rust can be
//! compared (the reason is on standard error).

use std::io::{Read, Write};

fn main() {
    if std::env::args().nth(1).as_deref() == Some("--sources") {
        print!("{}", xarxa::SOURCES);
        return;
    }
    xarxa::world::quiet_expected_panics();
    let mut input = Vec::new();
    std::io::stdin().read_to_end(&mut input).unwrap();
    let outcome = oracle::events::run(&input);
    std::io::stdout().write_all(outcome.output.as_bytes()).unwrap();
    if let Some(why) = outcome.outside {
        eprintln!("outside what the Rust can be compared on: {why}");
        std::process::exit(3);
    }
}

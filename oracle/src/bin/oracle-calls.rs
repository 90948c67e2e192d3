//! Single calls on the real code: one line in, one line out. With `--model`, on the model. See README.md for the lines.
//!
//! Exit code 3, the reason on standard error: a line left the range in which the Rust is exact, so the answers from there on to
//! the next `new` are the Rust's and need not be document 01's.

use std::io::{Read, Write};

use oracle::calls::{self, Modelled, Real};

fn main() {
    xarxa::world::quiet_expected_panics();
    let with_model = match std::env::args().nth(1).as_deref() {
        Some("--model") => true,
        None => false,
        Some(_) => {
            eprintln!("oracle-calls [--model]");
            std::process::exit(2)
        }
    };
    let mut input = Vec::new();
    std::io::stdin().lock().read_to_end(&mut input).unwrap();
    let (mut real, mut modelled) = (Real::default(), Modelled::default());
    let mut outside = None;
    let mut out = std::io::BufWriter::new(std::io::stdout().lock());
    for (i, line) in calls::split(&input).into_iter().enumerate() {
        let answer = if with_model {
            calls::answer_bytes(&mut modelled, line)
        } else {
            calls::answer_bytes(&mut real, line)
        };
        writeln!(out, "{answer}").unwrap();
        if let (None, Some(rule)) = (&outside, real.outside()) {
            outside = Some(format!("outside what the Rust can be compared on: {rule} (line {})", i + 1));
        }
    }
    out.flush().unwrap();
    if let Some(rule) = outside {
        eprintln!("{rule}");
        std::process::exit(3)
    }
}

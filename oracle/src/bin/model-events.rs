//! The event program by the model: document 01 as written, 64-bit times. `--rules` prints the rules that fired instead.

use std::io::{Read, Write};

fn main() {
    let mut input = Vec::new();
    std::io::stdin().read_to_end(&mut input).unwrap();
    let output = model::script::run(&input);
    if std::env::args().nth(1).as_deref() == Some("--rules") {
        for (name, count) in model::marks::names().iter().zip(model::marks::take()) {
            if count > 0 {
                println!("{name}");
            }
        }
        return;
    }
    std::io::stdout().write_all(output.as_bytes()).unwrap();
}

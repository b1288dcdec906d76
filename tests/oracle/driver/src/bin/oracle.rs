//! Script driver over the unchanged Rust store. See README.md.
use driver::script::Session;
use std::io::{BufRead, Write};

fn main() {
    std::panic::set_hook(Box::new(|_| {}));
    let mut session = Session::new(false);
    let out = &mut std::io::stdout().lock();
    for line in std::io::stdin().lock().lines() {
        if let Some(text) = session.line(&line.unwrap()) {
            writeln!(out, "{text}").unwrap();
        }
    }
}

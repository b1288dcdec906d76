//! Runs recorded scripts on the Rust and the port:   replay FILE.. [--rule NAME]
//! Fails at the first difference, if a call, a refusal that it can give, a format at equal
//! generations or a hole with all, some or none of its sectors blank did not occur, or if there
//! were fewer than 20,000 calls. `--rule`: by a wrong rule for the names that 02, S-5 retires.
use driver::script::retires;
use port::rules::WRONG;
use port::{Tally, play_by};

fn main() {
    port::quiet();
    let mut tally = Tally::default();
    let mut files: Vec<String> = std::env::args().skip(1).collect();
    let rule = match files.iter().position(|w| w == "--rule") {
        Some(k) => {
            let name = files.drain(k..).nth(1).unwrap_or_default();
            WRONG.iter().find(|r| r.0 == name).expect("a rule of port::rules").1
        }
        None => retires,
    };
    for file in files {
        let Ok(text) = std::fs::read_to_string(&file) else {
            println!("{file} cannot be read");
            std::process::exit(2);
        };
        let before = tally.calls();
        if let Err(stop) = play_by(text.lines(), &mut tally, rule) {
            println!("{file}, line {}: {}\n{}", stop.line, text.lines().nth(stop.line - 1).unwrap_or(""), stop.why);
            std::process::exit(1);
        }
        println!("{file}: {} calls, no difference", tally.calls() - before);
    }
    let missing = tally.missing();
    if !missing.is_empty() || tally.calls() < 20_000 {
        println!("{} calls, 20,000 expected; answers that did not occur: {}", tally.calls(), missing.join(", "));
        std::process::exit(1);
    }
    println!("{}", tally.show());
}

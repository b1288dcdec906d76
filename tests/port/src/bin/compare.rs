//! Makes random scripts and compares the port with the Rust on them:
//!   compare SEED SECONDS              as long as that; stops at the first difference
//!   compare every DEPTH               every history of so many calls over CALLS, the last but one stopped at each write
//!   compare write KIND SEED CALLS     prints rounds with at least so many calls
//!   compare write fields              prints a script that changes each field alone
//!   compare write answers FILE        prints the script of a file with its answers
//! Round k of a seed is always the same one. KIND: whole, damaged, random (calls that read), history, stopped, forged (calls that write).
use port::make::{Kind, fields, round};
use port::{Tally, answered, differs, play, smallest, spelled};
use std::time::{Duration, Instant};

const KINDS: [(&str, Kind); 6] = [
    ("whole", Kind::Whole), ("damaged", Kind::Damaged), ("random", Kind::Random),
    ("history", Kind::History), ("stopped", Kind::Stopped), ("forged", Kind::Forged),
];
/// Which of them a round is.
const TURNS: [usize; 10] = [3, 5, 0, 3, 5, 1, 4, 3, 5, 2];

fn seed_of(seed: u64, k: u64) -> u64 {
    seed.wrapping_mul(1_000_003).wrapping_add(k)
}

fn write(kind: Kind, seed: u64, calls: u64) {
    let (mut tally, mut k) = (Tally::default(), 0);
    while tally.calls() < calls {
        let lines = round(kind, seed_of(seed, k));
        let _ = play(lines.iter().map(String::as_str), &mut tally);
        println!("# round {k}\n{}", lines.join("\n"));
        k += 1;
    }
}

/// On three chunks of one sector: full stores, rollovers and chunks taken again come early.
const CALLS: [&str; 12] = [
    "create a -", "create b \"\"", "create t/c t/", "open_append a \"\"", "open_append b -", "appendn 486 1",
    "appendn 700 2", "sync", "delete a", "delete_oldest \"\"", "format 1 1", "mount",
];

fn every(depth: u32) -> Result<(), String> {
    let mut tally = Tally::default();
    for k in 0..CALLS.len().pow(depth) {
        let calls: Vec<&str> = (0..depth).map(|d| CALLS[k / CALLS.len().pow(d) % CALLS.len()]).collect();
        let [before @ .., stopped, last] = &calls[..] else { return Err("a depth of 2 at least".into()) };
        let stops = format!("stops {stopped} ; {last} ; mount ; list \"\" ; reader a ; next");
        let mut lines = vec!["volume 67", "format 1 1"];
        lines.extend(before);
        lines.extend([&stops, *last, "list \"\"", "reader a", "next"]);
        if let Err(stop) = play(lines.iter().copied(), &mut tally) {
            return Err(format!("DIFFERENCE: line {}: {}\n{}", stop.line, stop.why, lines.join("\n")));
        }
    }
    println!("every history of {depth} calls over {}\n{}", CALLS.len(), tally.show());
    Ok(())
}

fn compare(seed: u64, until: Instant) -> Result<(), String> {
    let (mut tally, mut k, mut shown) = (Tally::default(), 0, Instant::now());
    while Instant::now() < until {
        let (name, kind) = KINDS[TURNS[(k % 10) as usize]];
        let lines = round(kind, seed_of(seed, k));
        if let Err(stop) = play(lines.iter().map(String::as_str), &mut tally) {
            println!("DIFFERENCE: seed {seed}, round {k} ({name}), line {}: {}\n{}", stop.line, lines[stop.line - 1], stop.why);
            let small = smallest(spelled(lines), differs);
            let stop = play(small.iter().map(String::as_str), &mut Tally::default()).err().unwrap();
            return Err(format!("smallest script:\nrule3 on\n{}\n# {}", small.join("\n"), stop.why.replace('\n', "\n# ")));
        }
        k += 1;
        if shown.elapsed() > Duration::from_secs(5) {
            shown = Instant::now();
            eprintln!("{k} rounds, {} calls", tally.calls());
        }
    }
    println!("seed {seed}, {k} rounds\n{}", tally.show());
    Ok(())
}

fn main() {
    port::quiet();
    let a: Vec<String> = std::env::args().skip(1).collect();
    let n = |i: usize| a.get(i).and_then(|t| t.parse::<u64>().ok()).expect("a number");
    if a == ["write", "fields"] {
        return println!("{}", fields().join("\n"));
    }
    if a.len() == 3 && a[..2] == ["write", "answers"] {
        let text = std::fs::read_to_string(&a[2]).expect("a file");
        match answered(text.lines()) {
            Ok(lines) => return println!("{}", lines.join("\n")),
            Err(stop) => panic!("line {}: {}", stop.line, stop.why),
        }
    }
    if a.first().is_some_and(|w| w == "write") {
        let kind = KINDS.iter().find(|k| Some(k.0) == a.get(1).map(String::as_str)).expect("a kind").1;
        return write(kind, n(2), n(3));
    }
    let done = if a.first().is_some_and(|w| w == "every") {
        every(n(1) as u32)
    } else {
        compare(n(0), Instant::now() + Duration::from_secs(n(1)))
    };
    if let Err(why) = done {
        println!("{why}");
        std::process::exit(1);
    }
}

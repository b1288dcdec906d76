//! The random scripts of tests/port with calls of S-1 between their lines, on the port and the model side by side: damaged
//! volumes, forged handles, unreadable sectors, power stops.
//!   compare SEED SECONDS [CALLS] [--fault NAME]
//! Ends after the time, or after so many calls; round k of a seed is always the same one. At the first difference it prints
//! the seed, the round, the line, and the smallest script that it finds, and ends with status 1.
mod weave;
use points::args::{Args, show_script};
use points::{Counts, Pair};
use port::Tally;
use port::make::Kind;
use weave::{Cuts, Weaver};

/// Which of them a round is.
const TURNS: [Kind; 8] =
    [Kind::Forged, Kind::History, Kind::Damaged, Kind::Forged, Kind::Whole, Kind::Damaged, Kind::Random, Kind::Stopped];

fn main() {
    port::quiet();
    let args = Args::new();
    let (mut tally, mut counts, mut cuts, mut k) = (Tally::default(), Counts::default(), Cuts::default(), 0);
    while !args.over(tally.calls() + counts.calls()) {
        let mut w = Weaver::new(!args.of(k), Pair::new(&mut tally, &mut counts, args.fault), &mut cuts);
        if let Err(why) = w.round(TURNS[(k % 8) as usize], args.of(k)) {
            let (n, last) = (w.lines.len(), w.lines.last().unwrap());
            println!("DIFFERENCE: seed {}, round {k}, line {n}: {last}\n{why}", args.seed);
            show_script(w.lines, args.fault);
            std::process::exit(1);
        }
        k += 1;
    }
    println!("seed {}: {k} rounds\n{}\n{}", args.seed, tally.show(), counts.show());
    println!("held against the plain reader {}, with a hole at the limit {}, of these with blank sectors {}, refused {}", cuts.read, cuts.holes, cuts.blank, cuts.refused);
    let wrong = counts.wrong();
    println!("{}", if wrong.is_empty() { "every refusal occurred, and no other".into() } else { wrong.join(", ") });
    println!("{} calls on both, {} of S-1, no difference", tally.calls() + counts.calls(), counts.calls());
}

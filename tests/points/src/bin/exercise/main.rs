//! Random histories with settings and readings, on the port and the model side by side, held against 01's book.
//!   exercise SEED SECONDS [CALLS] [--fault NAME]
//! Ends after the time, or after so many calls; history k of a seed is always the same one. At the first failure it
//! prints the seed, the history, the call and a script, and ends with status 1.
mod history;
mod settings;
use history::History;
use points::args::{Args, show_script};
use points::{Counts, Pair};
use port::Tally;
use port::holds::Held;

#[derive(Default)]
struct Stats {
    histories: u64,
    acts: u64,
    settings: u64,
    runs: u64,
    /// Settings that ran with each sector unreadable in turn.
    sectors: u64,
    accepted: u64,
    stopped: u64,
    readings: u64,
    read: u64,
    payloads: u64,
    lost: u64,
    pins: u64,
    held: Held,
}

fn main() {
    port::quiet();
    let args = Args::new();
    let (mut tally, mut counts, mut st) = (Tally::default(), Counts::default(), Stats::default());
    while !args.over(tally.calls() + counts.calls()) {
        let k = st.histories;
        let mut h = History::new(args.of(k), Pair::new(&mut tally, &mut counts, args.fault), &mut st);
        if let Err(why) = h.go(&args) {
            let last = h.lines.last().unwrap();
            println!("FAILURE: seed {}, history {k}, call {} in all: {last}\n{why}", args.seed, h.pair.calls());
            show_script(h.lines, args.fault);
            std::process::exit(1);
        }
        st.histories += 1;
    }
    println!("seed {}: {} histories, {} acts\n{}\n{}", args.seed, st.histories, st.acts, tally.show(), counts.show());
    println!("settings {}, {} of them with each sector unreadable in turn, {} runs", st.settings, st.sectors, st.runs);
    println!("settings by writes left: {} accepted, {} stopped; points set {}", st.accepted, st.stopped, st.pins);
    println!("readings up to a point {}: {} to their end with {} payloads, {} of a file that is gone", st.readings, st.read, st.payloads, st.lost);
    println!("read back {} times, {} files, {} payloads, most files {}", st.held.checks, st.held.files, st.held.payloads, st.held.most_files);
    println!("{} calls on both, {} of S-1, no failure", tally.calls() + counts.calls(), counts.calls());
}

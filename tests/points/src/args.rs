//! The arguments of the programs, and how a failure is shown.
use crate::faults::{FAULTS, Fault};
use crate::run;
use port::smallest;
use std::panic::catch_unwind;
use std::time::{Duration, Instant};

/// SEED SECONDS [CALLS] [--fault NAME]
pub struct Args {
    pub seed: u64,
    ends: Instant,
    calls: u64,
    pub fault: Fault,
}

/// Takes `--fault NAME` out of a program's arguments.
pub fn fault_of(args: &mut Vec<String>) -> Fault {
    let Some(k) = args.iter().position(|w| w == "--fault") else { return Fault::None };
    let name = args.drain(k..).nth(1).unwrap_or_default();
    FAULTS.iter().find(|f| f.0 == name).expect("a fault's name").1
}

impl Args {
    pub fn new() -> Self {
        let mut a: Vec<String> = std::env::args().skip(1).collect();
        let fault = fault_of(&mut a);
        let n = |i: usize| a.get(i).map(|t| t.parse::<u64>().expect("a number"));
        let ends = Instant::now() + Duration::from_secs(n(1).expect("seconds"));
        Args { seed: n(0).expect("a seed"), ends, calls: n(2).unwrap_or(u64::MAX), fault }
    }

    /// The time or the calls are used up.
    pub fn over(&self, calls: u64) -> bool {
        calls >= self.calls || Instant::now() >= self.ends
    }

    /// The seed of a round.
    pub fn of(&self, round: u64) -> u64 {
        self.seed.wrapping_mul(1_000_003).wrapping_add(round)
    }
}

/// A script that failed: where port and model differ the smallest that does, else all of it. With a fault there is none to show.
pub fn show_script(lines: Vec<String>, fault: Fault) {
    let differs = |l: &[String]| catch_unwind(|| run(l, fault).is_some()).unwrap_or(false);
    if fault != Fault::None {
        return;
    }
    if !differs(&lines) {
        return println!("script:\n{}", lines.join("\n"));
    }
    let small = smallest(lines, differs);
    let (k, why) = run(&small, fault).unwrap();
    println!("smallest script:\n{}\n# line {}: {}", small.join("\n"), k + 1, why.replace('\n', "\n# "));
}

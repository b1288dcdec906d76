//! Every short history: exhaust DEPTH STOPS SECTORS SIZE SECONDS [reuse]
//! A small alphabet of calls; every call also with every writes-left, at most
//! STOPS stopped calls in a history. Seen states are not entered again.
//! A failure ends it with status 1, and so does running out of SECONDS.
use driver::book::*;
use driver::rig::*;
use std::collections::HashMap;
use std::hash::{Hash, Hasher};
use std::time::{Duration, Instant};

struct Run {
    depth: usize,
    size: u32,
    reuse: bool,
    until: Instant,
    seen: HashMap<u64, (usize, usize)>,
    st: Stats,
    nodes: u64,
    failures: u64,
    timed_out: bool,
    volume: Vec<u8>,
}

fn hash(rig: &Rig) -> u64 {
    let mut h = std::collections::hash_map::DefaultHasher::new();
    rig.m.volume.hash(&mut h);
    rig.token.hash(&mut h);
    format!("{:?} {:?}", rig.store, rig.app).hash(&mut h);
    h.finish()
}

impl Run {
    fn calls(&self, at: usize) -> Vec<Call> {
        let seed = if self.reuse { 1 } else { 100 + at as u64 };
        let s = |t: &str| t.to_string();
        vec![
            Call::Format(self.size, seed),
            Call::Create(s("a"), None),
            Call::Create(s("b"), Some(s(""))),
            Call::OpenAppend(s("a"), Some(s(""))),
            Call::OpenAppend(s("b"), None),
            Call::Append(486, 7 + at as u64),
            Call::Append(1, 90 + at as u64),
            Call::Sync,
            Call::Delete(s("a")),
            Call::DeleteOldest(s("")),
            Call::Mount,
        ]
    }

    fn go(&mut self, rig: &Rig, book: &Book, ops: &mut Vec<Op>, stops: usize) {
        if ops.len() == self.depth || self.timed_out {
            return;
        }
        if Instant::now() > self.until {
            self.timed_out = true;
            return;
        }
        let left = self.depth - ops.len();
        let key = hash(rig);
        match self.seen.get(&key) {
            Some((l, s)) if *l >= left && *s >= stops => return,
            _ => {
                self.seen.insert(key, (left, stops));
            }
        }
        self.nodes += 1;
        for call in self.calls(ops.len()) {
            if rig.store.is_none() && !matches!(call, Call::Format(..)) {
                continue;
            }
            self.st.calls += 1;
            let mut n = if stops > 0 { 0 } else { u32::MAX };
            loop {
                let mut r = rig.copy();
                let mut b = book.clone();
                let op = Op { call: call.clone(), left: Some(n), unreadable: None, off: false };
                match one(&mut r, &mut b, &op, &mut self.st) {
                    Ok(short) => {
                        ops.push(op);
                        // Refused calls without a write lead nowhere new, but
                        // a closed appender is new: the hash decides.
                        self.go(&r, &b, ops, if short { stops - 1 } else { stops });
                        ops.pop();
                        if !short {
                            break;
                        }
                    }
                    Err(e) => {
                        ops.push(op);
                        self.failures += 1;
                        if self.failures < 4 {
                            println!("FAILURE {e}\n{}", script(ops));
                        }
                        ops.pop();
                        break;
                    }
                }
                n += 1;
            }
        }
    }
}

fn main() {
    let a: Vec<String> = std::env::args().collect();
    let n = |i: usize| a[i].parse::<u64>().unwrap();
    let volume = vec![0; n(3) as usize * 512];
    let mut run = Run {
        depth: n(1) as usize,
        size: n(4) as u32,
        reuse: a.iter().any(|w| w == "reuse"),
        until: Instant::now() + Duration::from_secs(n(5)),
        seen: HashMap::new(),
        st: Stats::default(),
        nodes: 0,
        failures: 0,
        timed_out: false,
        volume,
    };
    let rig = Rig::new(run.volume.clone());
    let book = Book::new(n(3));
    run.go(&rig, &book, &mut vec![], n(2) as usize);
    println!(
        "depth {} stops {} sectors {} size {}: states {} calls {} runs {} checks {} failures {}{}",
        a[1], a[2], a[3], a[4], run.nodes, run.st.calls, run.st.runs, run.st.checks, run.failures,
        if run.timed_out { " TIMED OUT" } else { " complete" }
    );
    if run.timed_out || run.failures > 0 {
        std::process::exit(1);
    }
}

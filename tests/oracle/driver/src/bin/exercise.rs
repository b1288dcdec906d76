//! Random histories with power stops against the book (demand 3).
//! exercise SEED SECONDS [reuse [premise]] [big]
//! A failure ends it with status 1, unless `reuse` broke the premise.
//! `big`: 2,048 chunks in 16 table sectors, writes-left sampled above 30.
//! For each call every writes-left 0, 1, 2, ... is tried on a copy; the
//! history then goes on from one of these runs.
//! `reuse`: seeds from {1, 2}, so that store ids come again (premise broken).
//! `reuse premise`: the same, but a history ends where a format takes an id
//! that a valid record in a data sector already carries.
use driver::book::*;
use driver::rig::*;
use driver::*;
use std::collections::HashSet;
use std::time::{Duration, Instant};

struct Rng(u64);
impl Rng {
    fn next(&mut self) -> u64 {
        self.0 = self.0.wrapping_add(0x9e3779b97f4a7c15);
        let mut z = self.0;
        z = (z ^ (z >> 30)).wrapping_mul(0xbf58476d1ce4e5b9);
        z = (z ^ (z >> 27)).wrapping_mul(0x94d049bb133111eb);
        z ^ (z >> 31)
    }
    fn below(&mut self, n: u64) -> u64 {
        self.next() % n
    }
    fn one_in(&mut self, n: u64) -> bool {
        self.below(n) == 0
    }
}

fn a_name(r: &mut Rng, pool: u64) -> String {
    if r.one_in(60) {
        return ["", "/", "a//b", "a/", "x y", "aaaaaaaaaabbbbbbbbbbccccccccccddddddddddd"][r.below(6) as usize].into();
    }
    let k = r.below(pool);
    match k % 4 {
        0 => format!("f{k}"),
        1 => format!("t/{k}"),
        2 => format!("t/u/{k}"),
        _ => format!("w/{k}"),
    }
}

fn a_dir(r: &mut Rng) -> String {
    let n = if r.one_in(20) { 8 } else { 7 };
    ["", "", "t/", "t/", "t/u/", "w/", "zz/", "bad"][r.below(n) as usize].into()
}

fn a_roll(r: &mut Rng) -> Option<String> {
    (!r.one_in(3)).then(|| a_dir(r))
}

fn pick(r: &mut Rng, book: &Book, pool: u64, size: u32, reuse: bool, seed: &mut u64, sizes: &[u32]) -> Call {
    let known = |r: &mut Rng| {
        if book.files.is_empty() || r.one_in(6) {
            a_name(r, pool)
        } else {
            book.files[r.below(book.files.len() as u64) as usize].name.clone()
        }
    };
    // Some histories mostly create, to fill the 64 slots; after a stop the
    // appender is mostly gone, so open one more often then.
    if pool == 91 && r.one_in(2) {
        return Call::Create(a_name(r, pool), a_roll(r));
    }
    if !book.usable() && r.one_in(5) {
        let n = known(r);
        return Call::OpenAppend(n, a_roll(r));
    }
    // A reader that is still good is used.
    if let Ok(_) = book.next() {
        match r.below(12) {
            0..=3 => return Call::Next,
            4 => return Call::Seek(r.below(u64::from(size) * 5) as u32),
            5 => return Call::Append(r.below(600) as usize, r.next()),
            _ => {}
        }
    }
    match r.below(100) {
        0..=23 => Call::Create(a_name(r, pool), a_roll(r)),
        24..=33 => {
            let n = known(r);
            Call::OpenAppend(n, a_roll(r))
        }
        34..=63 => {
            let full = 486 * size as u64;
            let n = match r.below(10) {
                0 => 0,
                1 => 1 + r.below(20),
                2 => 485,
                3 => 486,
                4 => 487,
                5 => book.room() as u64,
                6 => full,
                7 => full * 2 + 1,
                8 => r.below(3000),
                _ => r.below(600),
            };
            Call::Append(n as usize, r.next())
        }
        64..=74 => Call::Sync,
        75..=79 => Call::Delete(known(r)),
        80..=83 => Call::DeleteOldest(a_dir(r)),
        84 => Call::List(a_dir(r)),
        85 => Call::Find(known(r)),
        86..=89 => Call::Reader(known(r)),
        90..=92 => Call::Next,
        93 => Call::Seek(r.below(40) as u32),
        94..=95 => Call::Mount,
        96..=97 if !r.one_in(3) => Call::Next,
        96..=97 => {
            *seed += 1;
            let s = if reuse { 1 + r.below(2) } else { *seed };
            let z = if r.one_in(10) { [0, 512, 513, 300][r.below(4) as usize] } else { sizes[r.below(sizes.len() as u64) as usize] };
            Call::Format(z, s)
        }
        _ => Call::Append(r.below(1200) as usize, r.next()),
    }
}

fn main() {
    let args: Vec<String> = std::env::args().collect();
    let start = args.get(1).and_then(|a| a.parse().ok()).unwrap_or(1u64);
    let seconds = args.get(2).and_then(|a| a.parse().ok()).unwrap_or(10u64);
    let reuse = args.iter().any(|a| a == "reuse");
    let big = args.iter().any(|a| a == "big");
    let premise = args.iter().any(|a| a == "premise");
    let (mut broken, mut again) = (0u64, 0u64);
    let until = Instant::now() + Duration::from_secs(seconds);
    let mut st = Stats::default();
    let (mut histories, mut failures) = (0u64, 0u64);
    let mut shapes: HashSet<String> = HashSet::new();
    let mut report = Instant::now();
    'all: while Instant::now() < until {
        let mut r = Rng(start.wrapping_mul(1_000_003).wrapping_add(histories));
        histories += 1;
        let (sectors, sizes): (u64, Vec<u32>) = match if big { 99 } else { r.below(10) } {
            99 => (64 + 2040 + r.below(60), vec![1]),
            0..=4 => (128, vec![1, 2, 3, 4, 5, 6, 7, 8]),
            5 => (128, vec![1]),
            6 => (64 + 1 + r.below(20), vec![1, 2, 3, 4, 8]),
            7..=8 => (64 + 129 + r.below(150), vec![1, 1, 1, 2]),
            _ => (64 + r.below(70), vec![1, 2, 4, 8, 64]),
        };
        let mut volume = vec![0u8; sectors as usize * 512 + r.below(3) as usize * 100];
        match r.below(4) {
            0 => volume.fill(255),
            1 => volume.iter_mut().for_each(|b| *b = r.next() as u8),
            _ => {}
        }
        let pool = [6, 20, 90, 91][r.below(4) as usize];
        let length = 20 + r.below(if pool >= 90 && !big { 400 } else { 150 });
        let mut rig = Rig::new(volume.clone());
        let mut book = Book::new(sectors);
        let mut ops: Vec<Op> = vec![];
        let mut seed = r.next() >> 8;
        let mut ids: HashSet<u64> = HashSet::new();
        let mut dup = false;
        let mut seen_ids: HashSet<u64> = HashSet::new();
        for k in 0..length {
            let size = book.size.max(1);
            let huge = big && r.one_in(6) && book.usable();
            let call = if huge {
                Call::Append(r.below(500_000) as usize, r.next())
            } else if k == 0 || rig.store.is_none() {
                seed += 1;
                Call::Format(sizes[r.below(sizes.len() as u64) as usize], if reuse { 1 } else { seed })
            } else {
                pick(&mut r, &book, pool, size, reuse, &mut seed, &sizes)
            };
            if let (true, Call::Format(z, sd)) = (premise, &call) {
                let mut t = rig.copy();
                t.m.left = u32::MAX;
                t.m.unreadable = u64::MAX;
                if t.call(&Call::Format(*z, *sd)).refusal == 0 {
                    let id = t.store.unwrap().store_id();
                    let stale = (64..sectors).any(|n| {
                        let b = rig.m.sector(n);
                        b[..4] == *b"CSRD" && b[4..12] == id.to_le_bytes() && b[508..] == crc32(&b[..508]).to_le_bytes()
                    });
                    if stale {
                        broken += 1;
                        break;
                    }
                    again += u64::from(!seen_ids.insert(id));
                }
            }
            st.calls += 1;
            let unreadable = r.one_in(40).then(|| r.below(sectors));
            // Every writes-left from 0 up, each on a copy.
            let mut runs = vec![];
            let mut n = 0;
            loop {
                let mut rig2 = rig.copy();
                let mut book2 = book.clone();
                let op = Op { call: call.clone(), left: Some(n), unreadable, off: false };
                match one(&mut rig2, &mut book2, &op, &mut st) {
                    Ok(short) => {
                        runs.push((rig2, book2, op));
                        if !short {
                            break;
                        }
                    }
                    Err(e) => {
                        failures += 1;
                        ops.push(op);
                        let class = e.split(|c: char| c.is_ascii_digit()).next().unwrap_or("").to_string();
                        if shapes.insert(class) && shapes.len() < 6 {
                            println!("FAILURE in history {histories} (seed {start}), {sectors} sectors, call {k}: {e}");
                            let (small, error) = minimise(&volume, &ops, true);
                            println!("minimised to {} calls: {error}", small.len());
                            println!("volume {sectors}\n{}", script(&small));
                        }
                        if !reuse && failures > 20 {
                            break 'all;
                        }
                        continue 'all;
                    }
                }
                n += if big && n > 30 { 1 + r.below(if huge { 1500 } else { 20 }) as u32 } else { 1 };
            }
            let last = runs.len() - 1;
            let which = if last > 0 && r.one_in(3) { r.below(last as u64) as usize } else { last };
            let (rig2, book2, mut op) = runs.swap_remove(which);
            rig = rig2;
            book = book2;
            if which == last {
                op.left = None;
            }
            // Half of the stops are followed by a mount, the others go on with
            // the handles in hand.
            if which != last && r.one_in(2) && book.formatted {
                op.off = true;
                rig.m.left = u32::MAX;
                rig.m.unreadable = u64::MAX;
                assert_eq!(rig.call(&Call::Mount).refusal, 0);
                book.enter(&Call::Mount, &[], 0, 0);
            }
            if let Call::Format(..) = op.call {
                if rig.m.log.iter().any(|w| w.1 == Kind::Commit) {
                    let id = rig.store.unwrap().store_id();
                    dup |= !ids.insert(id);
                }
            }
            ops.push(op);
            if dup && !reuse {
                st.dup_ids += 1;
                break;
            }
            if Instant::now() >= until {
                break;
            }
        }
        // The same history once more through the replayer, as a check on it.
        if histories % 50 == 0 {
            if let Err((i, e)) = run(&volume, &ops) {
                println!("REPLAY differs at {i}: {e}");
                failures += 1;
            }
        }
        if report.elapsed() > Duration::from_secs(60) {
            report = Instant::now();
            eprintln!("histories {histories} calls {} runs {} checks {} failures {failures}", st.calls, st.runs, st.checks);
        }
    }
    println!("seed {start} histories {histories} calls {} runs {} demand-3 checks {} failures {failures}", st.calls, st.runs, st.checks);
    if premise {
        println!("histories ended because a format would take an id that a valid record carries {broken}; formats with an id seen before, no such record {again}");
    }
    println!("refusals by number (0 = accepted) {:?}", st.refusals);
    println!(
        "formats {} creates {} create-rollovers {} (of the open file {}) extend-rollovers {} extends {} reopened {} records {}",
        st.formats, st.creates, st.create_rollovers, st.own_rollovers, st.rollovers, st.extends, st.reopened, st.records
    );
    println!(
        "stops with some writes done {} (after a finished step {}) most files {} most chunks {} payloads read back {} rule 3 would hide an 11: {} repeated ids {} reader answers compared {} readers moved by a 4 {} checks with 64 files {}",
        st.stops_mid, st.mid_two, st.max_files, st.max_chunks, st.payloads_read, st.rule3_vs_11, st.dup_ids, st.nexts, st.moved4, st.full_slots
    );
    // `reuse` alone breaks a premise on purpose.
    if histories == 0 || failures > 0 && (!reuse || premise) {
        std::process::exit(1);
    }
}

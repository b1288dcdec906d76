//! Forged volumes and handles that pass 01's rule 3: does the Rust panic, and
//! do the handles it gives back pass rule 3 again?   forge SEED SECONDS
//! Two things are known (AUDIT.md): the Rust overflows where 01 has number 12
//! (F16), and a forged appender can pass position 2,047 (F18). Any other ends
//! the run with status 1.
use driver::book::Call;
use driver::rig::Rig;
use driver::*;
use std::collections::HashMap;
use std::panic::{AssertUnwindSafe, catch_unwind};
use std::time::{Duration, Instant};

struct Rng(u64);
impl Rng {
    fn next(&mut self) -> u64 {
        self.0 = self.0.wrapping_add(0x9e3779b97f4a7c15);
        let mut z = self.0;
        z = (z ^ (z >> 30)).wrapping_mul(0xbf58476d1ce4e5b9);
        z = (z ^ (z >> 27)).wrapping_mul(0x94d049bb133111eb);
        z ^ (z >> 31)
    }
    fn below(&mut self, n: u64) -> u64 {
        self.next() % n
    }
    fn one_in(&mut self, n: u64) -> bool {
        self.below(n) == 0
    }
}

fn dir(r: &mut Rng) -> Option<String> {
    [None, Some("".into()), Some("t/".into())][r.below(3) as usize].clone()
}

fn name(r: &mut Rng) -> String {
    ["a", "b", "t/c", "t/d", "e"][r.below(5) as usize].into()
}

fn call(r: &mut Rng) -> Call {
    match r.below(14) {
        0 => Call::Create(name(r), dir(r)),
        1 => Call::OpenAppend(name(r), dir(r)),
        2 | 3 | 4 => Call::Append([1, 486, 487, 3000, 20000][r.below(5) as usize], r.next()),
        5 => Call::Sync,
        6 => Call::Delete(name(r)),
        7 => Call::DeleteOldest(dir(r).unwrap_or_default()),
        8 => Call::List("".into()),
        9 => Call::Reader(name(r)),
        10 | 11 => Call::Next,
        12 => Call::Seek(if r.one_in(4) { r.next() as u32 } else { r.below(60) as u32 }),
        _ => [Call::Mount, Call::Format(1 + r.below(5) as u32, r.next())][usize::from(r.one_in(4))].clone(),
    }
}

fn edge(r: &mut Rng, top: u64) -> u64 {
    match r.below(5) {
        0 => 0,
        1 => top,
        2 => top.saturating_sub(1),
        3 => 1.min(top),
        _ => r.below(top + 1),
    }
}

fn main() {
    if std::env::var("LOUD").is_err() {
        std::panic::set_hook(Box::new(|_| {}));
    }
    let a: Vec<String> = std::env::args().collect();
    let (seed, secs) = (a[1].parse::<u64>().unwrap(), a[2].parse::<u64>().unwrap());
    let until = Instant::now() + Duration::from_secs(secs);
    let (mut calls, mut panics, mut worst_position) = (0u64, 0u64, 0);
    let mut bad: HashMap<&str, u64> = HashMap::new();
    let mut by: HashMap<String, u64> = HashMap::new();
    let mut refusals = [0u64; 13];
    let mut round = 0u64;
    while Instant::now() < until {
        round += 1;
        let mut r = Rng(seed.wrapping_mul(7919).wrapping_add(round));
        let sectors = [66, 72, 128, 200, 300][r.below(5) as usize];
        let mut rig = Rig::new(vec![0; sectors * 512]);
        if rig.call(&Call::Format(1 + r.below(4) as u32, 1)).refusal != 0 {
            continue;
        }
        for n in ["a", "b", "t/c", "t/d"] {
            rig.call(&Call::Create(n.into(), None));
            if r.one_in(2) {
                rig.call(&Call::Append(r.below(3000) as usize, r.next()));
            }
        }
        // Forge the current copy's body.
        let s = rig.store.unwrap();
        let (copy, chunks, size) = (s.x_copy(), s.chunks() as usize, s.chunk_sectors());
        let base = copy * 32;
        if r.one_in(2) {
            let k = 8 + r.below((chunks as u64).div_ceil(128));
            for _ in 0..1 + r.below(12) {
                let at = (base + 1 + k) as usize * 512 + 4 * r.below(128.min(chunks as u64)) as usize;
                let slot = 1 + r.below(6) as u16;
                let rec = if r.one_in(3) { r.below(u64::from(size)) as u16 } else { 0 };
                let pos = if r.one_in(8) { r.below(0x8000) as u16 } else { r.below(5) as u16 };
                let (o, p) = match r.below(12) {
                    0 => (r.next() as u16, r.next() as u16),
                    1 | 2 => (0, 0),
                    3 | 4 => (slot | rec << 7, pos | 0x8000),
                    _ => (slot, pos),
                };
                rig.m.put(at, &o.to_le_bytes());
                rig.m.put(at + 2, &p.to_le_bytes());
            }
            rig.m.bodycrc(copy, k);
        }
        if r.one_in(3) {
            let at = (base + 1) as usize * 512 + 64 * r.below(8) as usize;
            match r.below(4) {
                0 => rig.m.put(at + 40, &(r.below(4) as u32).to_le_bytes()),
                1 => rig.m.put(at, b"t/c\0\0"),
                2 => rig.m.put(at, &[0; 64]),
                _ => rig.m.put(at + r.below(64) as usize, &[r.next() as u8]),
            }
            rig.m.bodycrc(copy, 0);
        }
        if r.one_in(4) {
            let at = base as usize * 512;
            match r.below(4) {
                0 => rig.m.put(at + 44, &(edge(&mut r, chunks as u64 - 1) as u32).to_le_bytes()),
                1 => rig.m.put(at + 40, &(u32::MAX - 2).to_le_bytes()),
                2 => rig.m.put(at + 32, &(u64::MAX - 3).to_le_bytes()),
                _ => rig.m.put(at + 48, &(1 + r.below(chunks as u64) as u32).to_le_bytes()),
            }
            rig.m.seal(base);
        }
        if r.one_in(2) {
            rig.call(&Call::Mount);
        }
        for _ in 0..12 {
            // Forge the handles within rule 3.
            let s = rig.store.as_mut().unwrap();
            if r.one_in(6) {
                let f = ["wid", "wtoken", "nowriter", "cursor", "crc0", "copy"][r.below(6) as usize];
                let v = match f { "cursor" => edge(&mut r, u64::from(s.chunks()) - 1), "copy" => r.below(2), "crc0" => r.next(), _ => r.below(6) };
                s.x_set(f, v);
            }
            let store = *s;
            let (n, z) = (u64::from(store.chunks()), u64::from(store.chunk_sectors()));
            if let Some(a) = rig.app.as_mut().filter(|_| r.one_in(2)) {
                let f = ["slot", "id", "chunk", "position", "at", "reopened", "closed", "fill", "token"][r.below(9) as usize];
                let v = match f {
                    "slot" => edge(&mut r, 63),
                    "id" => 1 + r.below(6),
                    "chunk" => edge(&mut r, n - 1),
                    "position" => edge(&mut r, 2047),
                    "at" => edge(&mut r, z),
                    "reopened" => 1 + r.below(z),
                    "fill" => edge(&mut r, 485),
                    _ => store.x_writer().map_or(r.below(4), |w| w.0.into()),
                };
                a.x_set(f, v);
                if r.one_in(2) {
                    a.x_set("token", store.x_writer().map_or(0, |w| w.0.into()));
                }
                if bad_appender(a, &store) {
                    rig.app = None;
                }
            }
            if let Some(q) = rig.reader.as_mut().filter(|_| r.one_in(2)) {
                let f = ["slot", "id", "chunks", "chunk", "end", "noend", "position", "index", "gen"][r.below(9) as usize];
                let v = match f {
                    "slot" => edge(&mut r, 63),
                    "id" => 1 + r.below(6),
                    "chunks" => 1 + edge(&mut r, 2047),
                    "chunk" => edge(&mut r, n - 1),
                    "end" | "index" => edge(&mut r, z),
                    "position" => edge(&mut r, u64::from(q.x_chunks())),
                    _ => store.generation(),
                };
                q.x_set(f, v);
                q.x_set("gen", store.generation());
                q.x_set("store", store.store_id());
                if bad_reader(q, &store) {
                    rig.reader = None;
                }
            }
            if rig.app.as_ref().is_some_and(|a| bad_appender(a, &store)) {
                rig.app = None;
            }
            if rig.reader.as_ref().is_some_and(|q| bad_reader(q, &store)) {
                rig.reader = None;
            }
            rig.m.left = if r.one_in(6) { r.below(15) as u32 } else { u32::MAX };
            rig.m.unreadable = if r.one_in(10) { r.below(sectors as u64) } else { u64::MAX };
            let c = call(&mut r);
            calls += 1;
            let spent = store.generation() > u64::MAX - 8 || store.x_next_id() > u32::MAX - 4;
            match catch_unwind(AssertUnwindSafe(|| rig.call(&c))) {
                Ok(o) => {
                    if o.refusal < 13 {
                        refusals[o.refusal as usize] += 1;
                    }
                }
                Err(e) => {
                    let t = e.downcast_ref::<String>().cloned().or(e.downcast_ref::<&str>().map(|s| s.to_string())).unwrap_or_default();
                    panics += 1;
                    *by.entry(format!("{}{t}", if spent { "(12) " } else { "" })).or_default() += 1;
                    break;
                }
            }
            let store = rig.store.unwrap();
            if bad_store(&store, rig.m.sectors()) {
                *bad.entry("store").or_default() += 1;
                break;
            }
            if let Some(a) = &rig.app {
                worst_position = worst_position.max(a.x_position());
                let fresh = matches!(c, Call::Append(..) | Call::Sync | Call::OpenAppend(..) | Call::Create(..));
                if bad_appender(a, &store) {
                    if fresh {
                        if a.x_position() <= 2047 && bad.get("appender else").copied().unwrap_or(0) < 4 {
                            println!("{c:?} gives slot {} id {} chunk {} position {} tail {:?} fill {}; chunks {} size {}", a.x_slot(), a.x_id(), a.x_chunk(), a.x_position(), a.x_tail(), a.x_fill(), store.chunks(), store.chunk_sectors());
                        }
                        *bad.entry(if a.x_position() > 2047 { "appender position > 2047" } else { "appender else" }).or_default() += 1;
                    }
                    rig.app = None;
                }
            }
            if let Some(q) = &rig.reader {
                if bad_reader(q, &store) {
                    if matches!(c, Call::Next | Call::Seek(_) | Call::Reader(_)) {
                        *bad.entry("reader").or_default() += 1;
                    }
                    rig.reader = None;
                }
            }
        }
    }
    println!("rounds {round} calls {calls} refusals {refusals:?} panics {panics} {by:?}");
    println!("handles given back that rule 3 refuses: {bad:?}; largest position {worst_position}");
    let known = by.keys().all(|k| k.starts_with("(12) ")) && bad.keys().all(|k| *k == "appender position > 2047");
    if calls == 0 || !known {
        std::process::exit(1);
    }
}

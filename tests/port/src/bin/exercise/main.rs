//! Random histories with power stops on the port alone, held against 01's book (demand 3).
//!   exercise SEED SECONDS [CALLS] [--fault NAME]
//! Ends after the time, or after so many calls; history k of a seed is always the same one. At the first
//! failure it prints the smallest history that it finds, as a script for `replay` or `oracle`, and ends with
//! status 1. README.md says what is compared, and what a fault is.
mod check;
mod faults;
use check::{Failure, Look, Stats, one};
use driver::book::{Book, Call};
use driver::crc32;
use driver::rig::{Op, script};
use driver::script::Session;
use faults::{FAULTS, Fault, Shim, sector};
use port::make::Rng;
use port::world::{Turn, World, turn};
use std::collections::HashSet;
use std::time::{Duration, Instant};

/// How it starts, as lines of a script; the calls from before 02, S-5, by the rules then in force; and its calls.
struct History {
    start: Vec<String>,
    earlier: Vec<Call>,
    turns: Vec<Turn>,
}

impl History {
    /// The port has only the rules of today, so the earlier calls are made on the volume by the Rust.
    fn opening(&self) -> String {
        let line = |call: &Call| {
            let word = if matches!(call, Call::Create(..) | Call::OpenAppend(..)) { "earlier " } else { "" };
            format!("{word}{}", script(&[turn(call.clone()).op]))
        };
        self.start.join("\n") + "\n" + &self.earlier.iter().map(line).collect::<String>()
    }

    /// The volume and the book after them. The handles in hand are gone.
    fn begin(&self) -> (World, Book) {
        let mut s = Session::new(true);
        self.opening().lines().for_each(|line| drop(s.line(line)));
        let world = World::new(s.st.m.volume);
        let mut book = Book::new(world.sectors());
        for call in self.earlier.iter().chain([&Call::Mount]) {
            let (plan, refusal) = book.plan(call);
            book.enter(call, &plan, plan.len(), refusal);
        }
        book.retired = true;
        (world, book)
    }
}

/// As many names in a history that mostly creates, to fill the 64 slots.
const CREATING: u64 = 91;

/// What a history's calls are taken from.
struct Maker {
    r: Rng,
    sizes: Vec<u32>,
    /// How many names there are.
    pool: u64,
    /// One call in so many is a format; one that writes is stopped.
    formats: u64,
    stops: u64,
    /// The last seed that was not used before.
    seed: u64,
    /// Ids of accepted formats.
    ids: HashSet<u64>,
    again: u64,
    avoided: u64,
}

impl Maker {
    fn new(mut r: Rng) -> (Self, Vec<String>) {
        let any = |r: &mut Rng, n| 80 + r.below(n);
        let (sectors, sizes) = match r.below(10) {
            // soon full
            0..=3 => (any(&mut r, 24), vec![1, 2, 3, 4, 5, 6, 7, 8]),
            4 => (any(&mut r, 120), vec![1]),
            // two to five table sectors
            5 | 6 => (64 + 129 + r.below(508), vec![1, 1, 1, 2, 3]),
            7 => (576 + r.below(125), vec![512, 300, 256, 100, 64]),
            8 => {
                let sectors = any(&mut r, 621);
                (sectors, (0..4).map(|_| 1 + r.below((sectors - 64).min(512)) as u32).collect())
            }
            _ => (any(&mut r, 30), vec![1, 2, 3, 4, 8, 16]),
        };
        let (pool, formats) = (r.pick(&[4, 6, 20, 20, 90, CREATING]), r.pick(&[12, 60, 400, 400]));
        let (stops, seed) = (r.pick(&[2, 4, 8, 16]), r.next() >> 8);
        let (sectors, sizes) = if pool == CREATING { (sectors.max(150), vec![1, 1, 2]) } else { (sectors, sizes) };
        let fill = r.pick(&["zero", "zero", "ff", "rand"]);
        let start = vec![format!("volume {sectors} {fill} {} {}", r.below(1000), r.pick(&[0, 0, 0, 1, 511]))];
        (Maker { r, sizes, pool, formats, stops, seed, ids: HashSet::new(), again: 0, avoided: 0 }, start)
    }

    /// Calls from before 02, S-5, in a third of the histories; half of their names are dot names.
    fn earlier(&mut self) -> Vec<Call> {
        if !self.r.one_in(3) {
            return vec![];
        }
        let mut calls = vec![Call::Format(self.r.pick(&self.sizes), self.r.next() >> 8)];
        for _ in 0..1 + self.r.below(8) {
            let name = if self.r.one_in(2) { self.dotted() } else { self.name() };
            calls.push(if self.r.one_in(4) { Call::OpenAppend(name, self.rollover()) } else { Call::Create(name, self.rollover()) });
            for _ in 0..self.r.below(3) {
                calls.push(Call::Append(self.r.below(1500) as usize, self.r.next()));
            }
            calls.push(Call::Sync);
        }
        calls
    }

    fn dotted(&mut self) -> String {
        let k = self.r.below(self.pool.min(9));
        self.r.pick(&[".a", "t/.b", ".t/c", "t/u/.d", ".w/.e"]).to_string() + &k.to_string()
    }

    fn name(&mut self) -> String {
        if self.r.one_in(100) {
            let long = "aaaaaaaaaabbbbbbbbbbccccccccccddddddddddd";
            return self.r.pick(&["", "/", "a//b", "a/", "x y", "/.a", long]).into();
        }
        if self.r.one_in(20) {
            return self.dotted();
        }
        let k = self.r.below(self.pool);
        match k % 5 {
            0 => format!("f{k}"),
            1 => format!("t/{k}"),
            2 => format!("t/u/{k}"),
            3 => format!("traces/abcdefghijklmnopqrstuvwxyz.012_{k:02}"),
            _ => format!("w/{k}"),
        }
    }

    fn dir(&mut self) -> String {
        if self.r.one_in(50) { "bad".into() } else { self.r.pick(&["", "", "", "t/", "t/u/", "w/", "traces/", "zz/", ".t/"]).into() }
    }

    fn rollover(&mut self) -> Option<String> {
        (!self.r.one_in(4)).then(|| self.dir())
    }

    /// Mostly the name of a file that is there.
    fn known(&mut self, book: &Book) -> String {
        if book.files.is_empty() || self.r.one_in(10) {
            return self.name();
        }
        book.files[self.r.below(book.files.len() as u64) as usize].name.clone()
    }

    fn append(&mut self, book: &Book) -> Call {
        let full = 486 * u64::from(book.size.max(1));
        let n = match self.r.below(12) {
            0 => 0,
            1 => 1 + self.r.below(20),
            2 => 485,
            3 => 486,
            4 => 487,
            5 => book.room() as u64,
            6 => full.min(486 * 520),
            7 => (full * 2 + 1).min(486 * 40),
            8 => self.r.below(486 * 30),
            9 => self.r.below(3000),
            _ => self.r.below(600),
        };
        Call::Append(n as usize, self.r.next())
    }

    /// A seed that was used before, or one that was not. If a valid record already carries the id that
    /// the format would take, demand 3's premise fails: then another seed is taken.
    fn format(&mut self, world: &World) -> Turn {
        let size = if self.r.one_in(12) { self.r.pick(&[0, 513, 512, 300]) } else { self.r.pick(&self.sizes) };
        let mut t = turn(Call::Format(size, 0));
        t.fresh = self.r.one_in(2).then(|| self.fresh());
        let mut again = self.r.one_in(2);
        loop {
            self.seed += 1;
            let seed = if again { 1 + self.r.below(3) } else { self.seed };
            t.op.call = Call::Format(size, seed);
            match taken(world, &t) {
                Some(id) if carried(world, id) => (self.avoided, again) = (self.avoided + 1, false),
                _ => return t,
            }
        }
    }

    /// Entropy and token of a mount or format.
    fn fresh(&mut self) -> (u64, u32) {
        (self.r.below(3), self.r.pick(&[0, 0, 7, u32::MAX - 1, u32::MAX]))
    }

    fn call(&mut self, world: &World, book: &Book) -> Turn {
        if !book.formatted && !self.r.one_in(10) || self.r.one_in(self.formats) {
            return self.format(world);
        }
        let t = turn(self.plain(book));
        let fresh = t.op.call == Call::Mount && self.r.one_in(2);
        Turn { fresh: fresh.then(|| self.fresh()), ..t }
    }

    fn plain(&mut self, book: &Book) -> Call {
        if self.pool == CREATING && !self.r.one_in(3) {
            return Call::Create(self.name(), self.rollover());
        }
        // After a stop the appender is mostly gone: open one. A reader that is still good is used.
        if !book.usable() && !book.files.is_empty() && self.r.one_in(2) {
            return Call::OpenAppend(self.known(book), self.rollover());
        }
        if book.next().is_ok() {
            match self.r.below(10) {
                0..=4 => return Call::Next,
                5 => return Call::Seek(self.r.below(u64::from(book.size) * 5) as u32),
                _ => {}
            }
        }
        match self.r.below(100) {
            0..=21 => Call::Create(self.name(), self.rollover()),
            22..=30 => Call::OpenAppend(self.known(book), self.rollover()),
            31..=65 => self.append(book),
            66..=76 => Call::Sync,
            77..=81 => Call::Delete(self.known(book)),
            82..=84 => Call::DeleteOldest(self.dir()),
            85 => Call::List(self.dir()),
            86 => Call::Find(self.known(book)),
            87..=94 => Call::Reader(self.known(book)),
            95 if self.r.one_in(2) => Call::Next,
            95 => Call::Seek(self.r.below(40) as u32),
            _ => Call::Mount,
        }
    }

    /// Writes left, often fewer than the call takes, and now and then an unreadable sector.
    fn limits(&mut self, world: &World, t: &mut Turn) {
        if self.r.one_in(40) {
            t.op.unreadable = Some(self.r.below(world.sectors()));
        }
        let takes = u32::MAX - { let mut w = world.clone(); w.run(t, u32::MAX); w.medium[0] as u32 };
        if takes > 0 && self.r.one_in(self.stops) {
            t.op.left = Some(self.r.below(takes.into()) as u32);
        } else if self.r.one_in(10) {
            t.op.left = Some(self.r.below(30) as u32);
        }
    }
}

/// The id that a format would take.
fn taken(world: &World, t: &Turn) -> Option<u64> {
    let mut w = world.clone();
    let plain = Turn { op: Op { unreadable: None, ..t.op.clone() }, ..t.clone() };
    (w.run(&plain, u32::MAX).refusal == 0).then_some(w.store[1])
}

/// A data sector is a valid record of a store with this id.
fn carried(world: &World, id: u64) -> bool {
    (64..world.sectors() as usize).map(|n| sector(&world.volume, n)).any(|b| {
        b[..4] == *b"CSRD" && b[4..12] == id.to_le_bytes() && b[508..] == crc32(&b[..508]).to_le_bytes()
    })
}

/// Runs a history again; the first failure and its call. One whose premise fails is none.
fn run(h: &History, fault: Fault) -> Option<(usize, Failure)> {
    let (mut shim, mut st) = (Shim::new(fault), Stats::default());
    let (mut world, mut book) = h.begin();
    for (k, t) in h.turns.iter().enumerate() {
        if matches!(t.op.call, Call::Format(..)) && taken(&world, t).is_some_and(|id| carried(&world, id)) {
            return None;
        }
        if let Err(f) = one(&mut shim, &mut world, &mut book, t, Look::All, &mut st) {
            return Some((k, f));
        }
    }
    None
}

/// What can be simpler about a call; the last one keeps the writes left with which it fails.
fn simpler(t: &Turn, last: bool) -> Vec<Turn> {
    let left = if last { t.op.left } else { None };
    let mut all = vec![
        Turn { op: Op { left, ..t.op.clone() }, ..t.clone() },
        Turn { op: Op { unreadable: None, ..t.op.clone() }, ..t.clone() },
        Turn { fresh: None, ..t.clone() },
    ];
    let lengths = |n: usize| [0, 1, 486, n / 2].into_iter().filter(move |m| *m < n);
    if let Call::Append(n, tag) = t.op.call {
        all.extend(lengths(n).map(|m| Turn { op: Op { call: Call::Append(m, tag), ..t.op.clone() }, ..t.clone() }));
    }
    all.retain(|s| format!("{:?} {:?}", s.op, s.fresh) != format!("{:?} {:?}", t.op, t.fresh));
    all
}

/// Calls left out, the longest runs first, then simpler ones, as long as it fails somewhere; half a minute at most.
fn smallest(mut h: History, mut f: Failure, fault: Fault) -> (History, Failure) {
    let until = Instant::now() + Duration::from_secs(30);
    let try_ = |h: &mut History, f: &mut Failure, turns: Vec<Turn>| {
        let mut other = History { start: h.start.clone(), earlier: h.earlier.clone(), turns };
        let Some((k, why)) = run(&other, fault) else { return false };
        other.turns.truncate(k + 1);
        other.turns[k].op.left = Some(why.left);
        (*h, *f) = (other, why);
        true
    };
    loop {
        let mut less = false;
        let mut width = h.turns.len().div_ceil(2);
        while width > 0 {
            let mut at = 0;
            while at < h.turns.len() && Instant::now() < until {
                let mut fewer = h.turns.clone();
                fewer.drain(at..(at + width).min(fewer.len()));
                if try_(&mut h, &mut f, fewer) { less = true } else { at += width }
            }
            width /= 2;
        }
        let mut k = 0;
        while k < h.turns.len() && Instant::now() < until {
            let found = simpler(&h.turns[k], k + 1 == h.turns.len()).into_iter().any(|s| {
                let mut other = h.turns.clone();
                other[k] = s;
                try_(&mut h, &mut f, other)
            });
            less |= found;
            k += usize::from(!found);
        }
        if !less || Instant::now() >= until {
            return (h, f);
        }
    }
}

/// As a script.
fn show(h: &History) -> String {
    let mut text = format!("rule3 on\n{}", h.opening());
    for t in &h.turns {
        if let Some((entropy, token)) = t.fresh {
            text += &format!("entropy {entropy}\ntoken {token}\n");
        }
        text += &script(std::slice::from_ref(&t.op));
    }
    text
}

/// One history. `until`: the time or the calls are used up.
fn history(maker: &mut Maker, start: Vec<String>, fault: Fault, st: &mut Stats, until: &dyn Fn(&Stats) -> bool) -> Result<(), (History, Failure)> {
    let mut h = History { start, earlier: maker.earlier(), turns: vec![] };
    let (mut shim, (mut world, mut book)) = (Shim::new(fault), h.begin());
    let length = 20 + maker.r.below(if maker.pool == CREATING { 300 } else { 180 });
    let mut mount = !h.earlier.is_empty();
    st.earlier += u64::from(mount);
    while (h.turns.len() as u64) < length && !until(st) {
        let mut t = if mount { turn(Call::Mount) } else { maker.call(&world, &book) };
        if mount {
            t.fresh = Some(maker.fresh());
        } else {
            maker.limits(&world, &mut t);
        }
        let look = maker.r.pick(&[Look::Last, Look::Last, Look::Some]);
        let (formats, stopped) = (st.formats, st.stopped);
        let done = one(&mut shim, &mut world, &mut book, &t, look, st);
        h.turns.push(t);
        if let Err(f) = done {
            h.turns.last_mut().unwrap().op.left = Some(f.left);
            return Err((h, f));
        }
        if st.formats > formats {
            maker.again += u64::from(!maker.ids.insert(world.store[1]));
        }
        // half of the stops are followed by a mount, after the others the handles in hand go on
        mount = st.stopped > stopped && maker.r.one_in(2);
    }
    Ok(())
}

fn main() {
    let mut a: Vec<String> = std::env::args().skip(1).collect();
    let fault = match a.iter().position(|w| w == "--fault") {
        Some(k) => {
            let name = a.drain(k..).nth(1).unwrap_or_default();
            FAULTS.iter().find(|f| f.0 == name).expect("zeroing, order, swap or more").1
        }
        None => Fault::None,
    };
    let n = |i: usize| a.get(i).map(|t| t.parse::<u64>().expect("a number"));
    let (seed, calls) = (n(0).expect("a seed"), n(2).unwrap_or(u64::MAX));
    let ends = Instant::now() + Duration::from_secs(n(1).expect("seconds"));
    let until = |st: &Stats| st.calls >= calls || Instant::now() >= ends;
    let (mut st, mut k, mut again, mut avoided) = (Stats::default(), 0, 0, 0);
    while !until(&st) {
        let (mut maker, start) = Maker::new(Rng(seed.wrapping_mul(1_000_003).wrapping_add(k)));
        if let Err((h, f)) = history(&mut maker, start, fault, &mut st, &until) {
            println!("FAILURE: seed {seed}, history {k}, call {} of it, {} in all: {}", h.turns.len(), st.calls + 1, f.why);
            let (h, f) = smallest(h, f, fault);
            print!("smallest history, {} calls:\n{}# {}\n", h.turns.len(), show(&h), f.why);
            std::process::exit(1);
        }
        (k, again, avoided) = (k + 1, again + maker.again, avoided + maker.avoided);
    }
    println!("seed {seed}: {k} histories; of each call accepted, then refused by number");
    for (call, answers) in &st.answers {
        let refused = answers.iter().enumerate().skip(1).filter(|a| *a.1 > 0).map(|(r, n)| format!(" {r}:{n}"));
        println!("{call}: {}{}", answers[0], refused.collect::<String>());
    }
    println!("{} reader answers, {} files opened again in a partial chunk, most files {}, most chunks {}", st.nexts, st.reopened, st.held.most_files, st.most_chunks);
    println!("formats with an id had before {again}, seeds not taken for demand 3's premise {avoided}");
    println!(
        "histories with calls from before S-5 {}; of their files with dot names {} deleted, {} rolled over, {} of these calls stopped",
        st.earlier, st.dots.deleted, st.dots.rolled, st.dots.stopped
    );
    if st.calls >= 5_000 && (st.dots.deleted == 0 || st.dots.rolled == 0) {
        println!("no file with a dot name was deleted, or none rolled over");
        std::process::exit(1);
    }
    println!("runs of calls {}, read back {} times, {} payloads", st.runs, st.held.checks, st.held.payloads);
    println!(
        "{} calls, {} stopped ({} after some writes), {} formats, {} creates, {} rollovers ({} in create), {} deletes, {} extensions, {} records, {} files read back, no failure",
        st.calls, st.stopped, st.stopped_inside, st.formats, st.creates, st.rollovers + st.create_rollovers, st.create_rollovers,
        st.deletes, st.extensions, st.records, st.held.files
    );
}

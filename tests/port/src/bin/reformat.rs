//! 02, S-7: a format over any two header copies of which a mount takes one, stopped at each of its writes.
//!   reformat SEED SITUATIONS
//! A situation is a volume on which a mount is accepted: each copy from a store of its own, or one header in both places as
//! the bench tool leaves it, beside bodies that differ; generations smaller, equal, larger, 0 and the last two; one copy
//! perhaps absent or damaged. Format, mount and list are put to the port, to C and to the driver's Rust, as in `compare`.
//! Then, refused, mount must give the store that it gave before, with its body, every data sector and the listing; accepted,
//! the store that format answered, empty. The Rust as it is, by 01's rule, must fail in this wherever the generations are
//! equal and the format is accepted, and nowhere else.
use driver::script::{Session, State, equal_generations};
use driver::mount;
use port::bridge::store_words;
use port::make::Rng;
use port::{Play, Tally};
use std::collections::BTreeMap;

type Words = ([u64; 10], [u32; 24]);

/// The copy that mount takes of a store with some files, 32 sectors.
fn a_copy(r: &mut Rng, sectors: u64) -> Vec<u8> {
    let mut s = Session::new(true);
    let mut say = |line: String| s.line(&line).unwrap_or_default();
    say(format!("volume {sectors}"));
    say(format!("format {} {}", r.pick(&[1, 2, 4]), r.below(6)));
    for k in 0..r.below(5) {
        say(format!("create f{k} -"));
        say(format!("appendn 500 {k}"));
    }
    if r.one_in(2) {
        say("delete f0".into());
    }
    let m = &mut s.st.m;
    let at = 32 * 512 * mount(m, &mut [0; 512]).ok().expect("a store").x_copy() as usize;
    m.volume[at..at + 32 * 512].to_vec()
}

fn generations(r: &mut Rng) -> [u64; 2] {
    let last = u64::MAX - r.below(2);
    let few = [r.below(4), r.below(4)];
    r.pick(&[[5, 5], [5, 6], [6, 5], [0, 0], [last, last], [5, last], [last, 5], few])
}

/// Both copies, then data that is not zeros; and which situation it is.
fn volume(r: &mut Rng) -> (Session, String) {
    let sectors = 64 + r.pick(&[16, 20, 64, 140]);
    let (mut a, mut b) = (a_copy(r, sectors), a_copy(r, sectors));
    let tool = r.one_in(4);
    if tool {
        b[..512].copy_from_slice(&a[..512]);
    } else {
        let [x, y] = generations(r);
        a[32..40].copy_from_slice(&x.to_le_bytes());
        b[32..40].copy_from_slice(&y.to_le_bytes());
    }
    let mut s = Session::new(true);
    s.line(&format!("volume {sectors} rand {}", r.below(100)));
    s.st.m.put(0, &a);
    s.st.m.put(32 * 512, &b);
    let mut kinds = ["valid"; 2];
    for (k, kind) in kinds.iter_mut().enumerate() {
        s.st.m.seal(32 * k as u64);
        *kind = r.pick(&["valid", "valid", "valid", "valid", "valid", "absent", "damaged"]);
        match *kind {
            "absent" => s.st.m.put(32 * 512 * k, &[0; 16]),
            "damaged" => s.st.m.volume[32 * 512 * k + 100] ^= 1,
            _ => {}
        }
    }
    let order = match (kinds, s.st.m.generation(0).cmp(&s.st.m.generation(32))) {
        (["valid", "valid"], std::cmp::Ordering::Less) => ", A < B",
        (["valid", "valid"], std::cmp::Ordering::Equal) if tool => ", one header",
        (["valid", "valid"], std::cmp::Ordering::Equal) => ", A = B",
        (["valid", "valid"], std::cmp::Ordering::Greater) => ", A > B",
        _ => "",
    };
    (s, format!("A {}, B {}{order}", kinds[0], kinds[1]))
}

/// Who answers a script's lines: the port, C and the driver's Rust together, or the Rust as it is.
trait Side {
    fn say(&mut self, line: &str) -> Result<String, String>;
    fn state(&mut self) -> &mut State;

    /// What a mount and a list give: the store value, and the listing or its refusal.
    fn look(&mut self) -> Result<Option<(Words, String)>, String> {
        if !self.say("mount")?.starts_with("ok") {
            return Ok(None);
        }
        let store = self.state().store.as_ref().map(store_words);
        Ok(store.zip(Some(self.say("list \"\"")?)))
    }

    /// The format at each of its writes: how often it was run, how often what was left is neither the old store nor the
    /// new by its answer, and whether the last run was accepted.
    fn stops(&mut self, v: &[u8], format: &str, unreadable: &str) -> Result<(u64, u64, bool), String> {
        self.state().m.volume = v.to_vec();
        let old = self.look()?.ok_or("no store to begin with")?;
        let body = 512 * (32 * old.0.0[0] as usize + 1)..512 * (32 * old.0.0[0] as usize + 25);
        let mut bad = 0;
        for n in 0.. {
            self.state().m.volume = v.to_vec();
            self.say(&format!("setleft {n}"))?;
            self.say(unreadable)?;
            let accepted = self.say(format)?.starts_with("ok");
            let short = self.state().m.refused_write;
            let made = self.state().store.as_ref().map(store_words);
            self.say("setleft max")?;
            self.say("unreadable none")?;
            let now = self.look()?;
            let left = &self.state().m.volume;
            let right = if accepted { now == made.zip(Some("ok 0".into())) } else { now.as_ref() == Some(&old) && left[body.clone()] == v[body.clone()] };
            bad += u64::from(!right || left[64 * 512..] != v[64 * 512..]);
            if !short {
                return Ok((n + 1, bad, accepted));
            }
        }
        unreachable!()
    }
}

impl Side for Play<'_> {
    fn say(&mut self, line: &str) -> Result<String, String> {
        self.line(line)
    }
    fn state(&mut self) -> &mut State {
        &mut self.session.st
    }
}

impl Side for Session {
    fn say(&mut self, line: &str) -> Result<String, String> {
        Ok(self.line(line).unwrap_or_default())
    }
    fn state(&mut self) -> &mut State {
        &mut self.st
    }
}

/// Of a class of situations: how many, the runs of format, those accepted; by 01's rule the wrong runs, and the situations with one.
#[derive(Default)]
struct Counts {
    situations: u64,
    runs: u64,
    accepted: u64,
    wrong: u64,
    with_wrong: u64,
}

fn situation(r: &mut Rng, tally: &mut Tally, by: &mut BTreeMap<String, Counts>) -> Result<(), String> {
    let (mut made, class) = volume(r);
    let v = made.st.m.volume.clone();
    let (size, seed) = (r.pick(&[1, 2, 4, 8, 0, 513, 512]), r.next());
    let unreadable = r.pick(&["unreadable none", "unreadable none", "unreadable none", "unreadable 0", "unreadable 32", "unreadable 40"]);
    if made.look()?.is_none() {
        return Ok(());
    }
    let format = format!("format {size} {seed}");
    let (runs, bad, accepted) = Play::new(tally).stops(&v, &format, unreadable).map_err(|why| format!("{class}, {format}: {why}"))?;
    if bad > 0 {
        return Err(format!("{class}, {format}: {bad} of {runs} runs leave neither the old store nor the new"));
    }
    let (_, wrong, _) = Session::new(false).stops(&v, &format, unreadable)?;
    if (wrong > 0) != (accepted && equal_generations(&made.st.m)) {
        return Err(format!("{class}, {format}: by 01's rule {wrong} runs are wrong"));
    }
    let c = by.entry(class).or_default();
    c.situations += 1;
    c.runs += runs;
    c.accepted += u64::from(accepted);
    c.wrong += wrong;
    c.with_wrong += u64::from(wrong > 0);
    Ok(())
}

fn main() {
    port::quiet();
    let a: Vec<u64> = std::env::args().skip(1).map(|t| t.parse().expect("a number")).collect();
    let [seed, many] = a[..] else { panic!("reformat SEED SITUATIONS") };
    let (mut r, mut tally, mut by) = (Rng(seed), Tally::default(), BTreeMap::new());
    for _ in 0..many {
        if let Err(why) = situation(&mut r, &mut tally, &mut by) {
            println!("FAILURE: seed {seed}: {why}");
            std::process::exit(1);
        }
    }
    println!("{:32} situations   runs accepted  by 01's rule: wrong, situations with one", "");
    let (mut runs, mut wrong) = (0, 0);
    for (class, c) in &by {
        println!("{class:32} {:>10} {:>6} {:>8} {:>20} {:>6}", c.situations, c.runs, c.accepted, c.wrong, c.with_wrong);
        (runs, wrong) = (runs + c.runs, wrong + c.wrong);
    }
    if by.len() != 8 || by.values().any(|c| c.accepted == 0) {
        println!("FAILURE: not every class of situations was met and accepted");
        std::process::exit(1);
    }
    println!("seed {seed}: {runs} runs of format, by 01's rule {wrong} wrong, {} calls put to all, 0 failures", tally.calls());
}

//! Random calls with stops and unreadable sectors, put to the port and the Rust. `Play` compares all that crosses and holds the map to the table; here
//! the free count after each call, and creates at other cursors, by older store values, by forged appenders and after another writer.
use crate::{CHUNKS, MANY, any_cursor};
use port::make::Rng;
use port::map::Wrong;
use port::{Play, Tally};

/// What happens to a map on its way, handed in or, with the one given beside it, handed back.
const FAULTS: &[(&str, Wrong)] = &[
    ("", |_, _, _| {}),
    ("last-bit", |_, given, map| if given.is_some() { map[1..].iter_mut().for_each(|w| *w &= u64::MAX >> 1) }),
    ("create-keeps", |call, given, map| if let ("create", Some(g)) = (call, given) { map.iter_mut().zip(g).for_each(|(w, g)| *w |= g) }),
    ("delete-forgets", |call, given, map| if let ("delete", Some(g)) = (call, given) { map.iter_mut().zip(g).for_each(|(w, g)| *w &= g) }),
    ("sync-moves", |call, given, map| if let ("sync", Some(_)) = (call, given) { map[1] ^= 1 }),
    ("unfit-as-fit", |call, given, map| if let ("mount", Some(_)) = (call, given) { map[0] = 1 }),
    ("odd-chunks", |call, given, map| if let ("create", None) = (call, given) { map[1..].iter_mut().for_each(|w| *w &= u64::MAX / 3) }),
    ("count-of-31", |call, given, map| if let ("free_count", None) = (call, given) { map[32] = 0 }),
];

#[derive(Default)]
struct Seen {
    stopped: u64,
    /// Creates that took one of the last two chunks of a word.
    high: u64,
    cursors: u64,
    old: u64,
    writers: u64,
}

struct History<'a> {
    r: &'a mut Rng,
    play: Play<'a>,
    seen: &'a mut Seen,
    size: u64,
    names: u64,
}

impl History<'_> {
    fn say(&mut self, line: &str) -> Result<String, String> {
        self.play.line(line).map_err(|why| format!("{line}: {why}"))
    }

    fn name(&mut self) -> String {
        let k = self.r.below(self.names);
        format!("{}{k}", ["", "a/", "b/"][k as usize % 3])
    }

    fn create(&mut self, name: &str) -> Result<(), String> {
        let dir = self.r.pick(&["-", "-", "-", "\"\"", "a/", "b/"]);
        let made = self.say(&format!("create {name} {dir}"))?.starts_with("ok");
        let chunk = self.play.session.st.app.as_ref().map_or(0, |a| a.x_chunk());
        self.seen.high += u64::from(made && chunk % 64 > 61);
        Ok(())
    }

    fn call(&mut self) -> Result<(), String> {
        let (name, dir) = (self.name(), self.r.pick(&["\"\"", "a/", "b/"]));
        let turn = self.r.below(100);
        let (left, stop) = (self.r.below(16), self.r.one_in(4));
        self.say(&format!("setleft {}", if stop { left.to_string() } else { "max".into() }))?;
        let copy = self.play.session.st.store.map_or(0, |s| s.x_copy());
        let (table, any) = (32 * copy + 9 + self.r.below(3), self.r.below(64));
        if self.r.one_in(if turn < 10 { 2 } else { 25 }) {
            let bad = self.r.pick(&[table, any]);
            self.say(&format!("unreadable {bad}"))?;
        }
        let line = match turn {
            0..10 => "mount".into(),
            10 => format!("format {} {}", self.size, self.r.below(9)),
            11..38 => return self.create(&name),
            38..46 => format!("open_append {name} {dir}"),
            46..70 => format!("appendn {}", 486 * self.r.below(7) + self.r.below(3)),
            70..80 => "sync".into(),
            80..92 => format!("delete {name}"),
            _ => format!("delete_oldest {dir}"),
        };
        self.say(&line).map(|_| ())
    }

    /// A create at another cursor, in a header that holds.
    fn at_a_cursor(&mut self) -> Result<(), String> {
        let Some(s) = self.play.session.st.store else { return Ok(()) };
        let (cursor, base) = (any_cursor(self.r, s.chunks().into()) as u32, 32 * s.x_copy());
        self.say(&format!("poke {base} 44 {:08x}", cursor.swap_bytes()))?;
        self.say(&format!("seal {base}"))?;
        self.say("mount")?;
        self.seen.cursors += 1;
        self.create("zz")
    }

    /// Another writer changes a byte of the table, in half of the cases with its checksum listed; then, on that volume alone, a mount or none, and calls.
    fn another_writer(&mut self) -> Result<(), String> {
        let Some(s) = self.play.session.st.store else { return Ok(()) };
        let (t, at, byte) = (self.r.below(u64::from(s.chunks().div_ceil(128))), self.r.below(512), self.r.below(256));
        self.seen.writers += 1;
        self.say("save now")?;
        self.say(&format!("poke {} {at} {byte:02x}", 32 * s.x_copy() + 9 + t))?;
        if self.r.one_in(2) {
            self.say(&format!("bodycrc {} {}", s.x_copy(), 8 + t))?;
        }
        if self.r.one_in(2) {
            self.say("mount")?;
        }
        self.say("free_count")?;
        self.create("zz")?;
        for line in ["delete_oldest \"\"", "free_count", "load now"] {
            self.say(line)?;
        }
        Ok(())
    }

    fn all(&mut self, calls: u64) -> Result<(), String> {
        self.say(&format!("format {} 1", self.size))?;
        self.at_a_cursor()?;
        self.say("save old")?;
        for _ in 0..calls {
            self.call()?;
            self.seen.stopped += u64::from(self.play.session.st.m.refused_write);
            self.say("free_count")?;
            self.say("setleft max")?;
            self.say("unreadable none")?;
            match self.r.below(12) {
                0 => drop(self.say("save old")?),
                1 | 2 => {
                    self.seen.old += 1;
                    self.say("save now")?;
                    self.say("load old store")?;
                    self.create("zz")?;
                    self.say("load now")?;
                }
                3 if self.play.session.st.app.is_some() => {
                    let chunks = self.play.session.st.store.map_or(1, |s| s.chunks().into());
                    let (slot, chunk) = (self.r.below(64), self.r.below(chunks));
                    let forged = if self.r.one_in(4) { format!("slot {slot}") } else { format!("chunk {chunk}") };
                    self.say(&format!("set appender {forged}"))?;
                }
                4 => self.another_writer()?,
                _ => {}
            }
        }
        self.say("save end")?;
        for _ in 0..6 {
            self.at_a_cursor()?;
            self.say("free_count")?;
            self.say("load end")?;
        }
        Ok(())
    }
}

pub fn run(r: &mut Rng, many: u64, fault: &str) -> Result<String, String> {
    let wrong = FAULTS.iter().find(|f| f.0 == fault).expect("a fault").1;
    let (mut tally, mut seen) = (Tally::default(), Seen::default());
    for k in 0..many {
        let big = k % 20 == 19;
        let (size, chunks) = if big { (1, r.pick(&MANY)) } else { (r.pick(&[1, 1, 2, 3]), CHUNKS[k as usize % CHUNKS.len()]) };
        let names = r.pick(&[4, 12, 70]);
        let mut play = Play::new(&mut tally);
        play.wrong = wrong;
        play.line(&format!("volume {}", 64 + chunks * size))?;
        let mut h = History { r, play, seen: &mut seen, size, names };
        h.all(if big { 24 } else { 60 }).map_err(|why| format!("history {k}, {chunks} chunks: {why}"))?;
    }
    let (m, Seen { stopped, high, cursors, old, writers }) = (&tally.maps, seen);
    let kinds = [m.fit_mounts, m.unfit_mounts, m.unfit_creates, m.moved, m.refused, stopped, high, cursors, old, writers];
    if kinds.contains(&0) {
        return Err(format!("not every kind of call was met: {kinds:?}"));
    }
    let seen = format!("{stopped} stopped, {high} creates at a word's end, {cursors} other cursors, {old} older store values, {writers} other writers");
    Ok(format!("{many} histories, {} calls, {}; {seen}; 0 differences", tally.calls(), m.show()))
}

//! The port beside the Rust: a script runs on the Rust, and each call that the
//! port has is put to both with the same bytes, handles and buffers; and the calls
//! of C firmware to the C functions and the Rust on copies of the volume.
pub mod bridge;
pub mod firmware;
pub mod histories;
pub mod holds;
pub mod make;
pub mod map;
pub mod rules;
pub mod world;
pub mod writes;
use bridge::{Count, Told};
use driver::script::{Map, Retires, Session, equal_generations, hole, retires, words};
use driver::{Store, hole_blanks};
use map::{UNFIT, Wrong};
use std::collections::{BTreeMap, BTreeSet, VecDeque};
use std::panic::{AssertUnwindSafe, catch_unwind};
use writes::{Asked, Writes};

/// The calls that are put to both, with every refusal that each can give.
pub const CALLS: &[(&str, &[u32])] = &[
    ("mount", &[2, 4, 5, 6, 7]),
    ("find", &[1, 3, 4, 7, 9]),
    ("list", &[1, 2, 3, 4, 7]),
    ("reader", &[1, 3, 4, 7, 9]),
    ("next", &[2, 3, 4, 7, 11]),
    ("seek", &[3, 4, 7, 11]),
    ("record", &[3]),
    ("free_count", &[3, 4, 7]),
    ("format", &[2, 4, 6, 12]),
    ("create", &[1, 3, 4, 5, 6, 7, 8, 10, 11, 12, 16]),
    ("open_append", &[1, 3, 4, 7, 9, 16]),
    ("append", &[3, 4, 5, 6, 7, 10, 11, 12]),
    ("sync", &[3, 4, 5, 6, 7, 10, 11, 12]),
    ("delete", &[1, 3, 4, 5, 6, 7, 9, 11, 12]),
    ("delete_oldest", &[1, 3, 4, 5, 6, 7, 11, 12]),
    ("store_mount", &[2, 4, 5, 6, 7]),
    ("store_format", &[2, 4, 6, 12]),
    ("store_delete", &[1, 2, 4, 5, 6, 7, 9, 12]),
    ("store_list", &[1, 2, 4, 5, 6, 7]),
];

/// A panic of the Rust in a call is an answer and prints nothing; any other prints where.
pub fn quiet() {
    std::panic::set_hook(Box::new(|p| {
        if p.location().is_none_or(|l| !l.file().contains("services")) {
            eprintln!("{p}");
        }
    }));
}

/// How often each call was accepted (0) or refused with each number.
#[derive(Default)]
pub struct Tally {
    counts: BTreeMap<(&'static str, u32), u64>,
    /// Sectors, and those of a chunk, of the accepted formats.
    geometries: BTreeSet<(u64, u32)>,
    /// What the port's calls wrote, beside the laws.
    pub writes: Writes,
    /// Formats at equal generations, which are not of the common domain.
    equal: u64,
    pub holes: Holes,
    pub maps: Maps,
}

/// The maps of free chunks that the port handed back, each as the table has it (02, S-3).
#[derive(Default)]
pub struct Maps {
    pub fit_mounts: u64,
    pub unfit_mounts: u64,
    /// Accepted with an unfit map.
    pub unfit_creates: u64,
    /// Fit ones that a call changed.
    pub moved: u64,
    /// Of refused calls.
    pub refused: u64,
}

impl Maps {
    fn count(&mut self, call: &str, accepted: bool, given: &Map, map: &Map) {
        let unfit = map[0] == 0;
        self.fit_mounts += u64::from(call == "mount" && !unfit);
        self.unfit_mounts += u64::from(call == "mount" && unfit);
        self.unfit_creates += u64::from(call == "create" && accepted && unfit);
        self.moved += u64::from(!matches!(call, "mount" | "format") && given != map);
        self.refused += u64::from(!accepted);
    }
    pub fn show(&self) -> String {
        let Maps { fit_mounts, unfit_mounts, unfit_creates, moved, refused } = self;
        format!("maps: {fit_mounts} fit mounts, {unfit_mounts} unfit; {unfit_creates} creates with an unfit map; {moved} moved, {refused} of refused calls")
    }
}

/// The holes that next gave, and their blank sectors (02, S-4).
#[derive(Default)]
pub struct Holes {
    all: u64,
    sectors: u64,
    blank: u64,
    none_blank: u64,
    some_blank: u64,
    all_blank: u64,
}

impl Holes {
    fn count(&mut self, sectors: u64, blank: u64) {
        self.all += 1;
        self.sectors += sectors;
        self.blank += blank;
        match blank {
            0 => self.none_blank += 1,
            b if b == sectors => self.all_blank += 1,
            _ => self.some_blank += 1,
        }
    }
    pub fn show(&self) -> String {
        let Holes { all, sectors, blank, none_blank, some_blank, all_blank } = self;
        format!("holes: {all} of {sectors} sectors, {blank} blank; all blank {all_blank}, some {some_blank}, none {none_blank}")
    }
    /// Whether holes of every kind were seen.
    pub fn every(&self) -> bool {
        self.none_blank > 0 && self.some_blank > 0 && self.all_blank > 0
    }
}

impl Tally {
    pub fn calls(&self) -> u64 {
        self.of(|_| true, |_| true)
    }
    fn count(&mut self, call: &str, refusal: u32) {
        let call = if call == "appendn" { "append" } else { call };
        let call = CALLS.iter().find(|c| c.0 == call).unwrap().0;
        *self.counts.entry((call, refusal)).or_default() += 1;
    }
    /// The calls with these names, and those of them with these answers.
    fn of(&self, call: impl Fn(&str) -> bool, answer: impl Fn(u32) -> bool) -> u64 {
        self.counts.iter().filter(|((c, r), _)| call(c) && answer(*r)).map(|(_, n)| n).sum()
    }
    /// A line for each call, and one for all: accepted, and refused as NUMBER:COUNT.
    pub fn show(&self) -> String {
        let line = |name: &str, call: &dyn Fn(&str) -> bool| {
            let refused: Vec<_> = (1..17).map(|r| (r, self.of(call, |x| x == r))).filter(|(_, n)| *n > 0).collect();
            let refused: Vec<_> = refused.iter().map(|(r, n)| format!("{r}:{n}")).collect();
            let (all, accepted) = (self.of(call, |_| true), self.of(call, |x| x == 0));
            format!("{name}: {all} calls, {accepted} accepted, refused {}", refused.join(" "))
        };
        let mut text: Vec<_> = CALLS.iter().map(|(call, _)| line(call, &|c| c == *call)).collect();
        text.extend(self.writes.show());
        text.push(self.holes.show());
        text.push(self.maps.show());
        text.push(format!("geometries: {}; formats at equal generations: {}", self.geometries.len(), self.equal));
        text.push(line("no difference", &|_| true));
        text.join("\n")
    }
    /// Each call's refusals that were not seen, a format at equal generations if none was, and holes with all, some and no blank sectors.
    pub fn missing(&self) -> Vec<String> {
        let mut none = vec![];
        for (call, refusals) in CALLS {
            for r in [0].iter().chain(*refusals) {
                if !self.counts.contains_key(&(*call, *r)) {
                    none.push(format!("{call} {r}"));
                }
            }
        }
        if self.equal == 0 {
            none.push("format at equal generations".into());
        }
        if !self.holes.every() {
            none.push(format!("a hole with all, some or none of its sectors blank ({})", self.holes.show()));
        }
        none
    }
}

/// Why a script stopped, and at which line (from 1).
pub struct Stop {
    pub line: usize,
    pub why: String,
}

/// A script as it runs on both.
pub struct Play<'a> {
    pub session: Session,
    /// The Rust for the calls of C, which are on copies of the volume.
    copies: Session,
    pub tally: &'a mut Tally,
    /// The last call with a law, and what the port wrote in it.
    pub last: Option<(Asked, u64)>,
    /// How the blank sectors of a hole are counted in the volume, and the port's last count.
    pub count: Count,
    blank: u64,
    /// What is done to a map on its way to the port and back: nothing, or a fault.
    pub wrong: Wrong,
}

impl<'a> Play<'a> {
    pub fn new(tally: &'a mut Tally) -> Self {
        Play { session: Session::new(true), copies: Session::new(true), tally, last: None, count: hole_blanks, blank: 0, wrong: |_, _, _| {} }
    }

    /// Holds the port's call to its law. What it spent is what it hands back less than it was given.
    fn hold(&mut self, w: &[&str], port: &Told) -> Result<(), String> {
        let asked = Asked::new(&self.session, w).ok_or("a call without a law")?;
        let left = u64::from(self.session.st.m.left);
        let spent = left.checked_sub(port.left()).ok_or(format!("{left} writes left, and {} after the call", port.left()))?;
        self.last = Some((asked, spent));
        self.tally.writes.hold(&asked, spent)
    }

    /// Runs a line; what it prints, or what differs.
    pub fn line(&mut self, line: &str) -> Result<String, String> {
        let w = words(line);
        match w.first() {
            Some(&"stops") => return self.stops(line),
            // how `oracle` prints, and which numbers it has: here those of the port
            Some(&"echo" | &"trace" | &"rule3") => return Ok(String::new()),
            // of the last hole, as the port counted
            Some(&"blank") => return Ok(format!("blank {}", self.blank)),
            _ => {}
        }
        if let Some(told) = w.first().and_then(|_| firmware::ask(&self.session, &mut self.copies, &w)) {
            let (call, refusal) = told?;
            self.tally.count(call, refusal);
        }
        let (given, before) = (self.session.st.map, self.session.st.store);
        if before.is_some() && w.first().is_some() {
            (self.wrong)(w[0], None, &mut self.session.st.map);
        }
        let port = w.first().and_then(|_| bridge::ask(&self.session, &w));
        self.session.st.map = given;
        if let Some(port) = &port {
            self.hold(&w, port)?;
            self.tally.equal += u64::from(w[0] == "format" && equal_generations(&self.session.st.m));
        }
        let text = self.session.line(line).unwrap_or_default();
        if let Some(port) = port {
            let refusal = text.strip_prefix("no ").map_or(0, |t| t.split(' ').next().unwrap().parse().unwrap());
            self.tally.count(w[0], refusal);
            if let (("format", 0), Some(s)) = ((w[0], refusal), &self.session.st.store) {
                self.tally.geometries.insert((self.session.st.m.sectors(), s.chunk_sectors()));
            }
            let rust = Told::rust(&self.session, w[0], &text, self.count);
            if let Some(why) = rust.differs(&port, &self.session.st.m.volume) {
                return Err(why);
            }
            if let Some(map) = port.map {
                self.keep(w[0], refusal == 0, before, map)?;
            }
            if let Some((from, to)) = hole(&text) {
                self.tally.holes.count((to - from).into(), port.blank);
                self.blank = port.blank;
            }
        }
        match w[..] {
            // the map is that of the port's own calls; a store value of others gets the unfit one, with which the port walks the table as the Rust does
            ["earlier", ..] | ["set", "store", "chunks" | "size", ..] => self.session.st.map = UNFIT,
            ["set", "store", field, ..] if field.starts_with("crc") => self.session.st.map = UNFIT,
            _ => {}
        }
        Ok(text)
    }

    /// Holds the map that the port handed back to the table's bytes, and hands it on. `before`: the store value given.
    pub fn keep(&mut self, call: &str, accepted: bool, before: Option<Store>, mut map: Map) -> Result<(), String> {
        let st = &mut self.session.st;
        (self.wrong)(call, Some(&st.map), &mut map);
        let new = matches!(call, "mount" | "format");
        let moved = before.map(|s| s.generation()) != st.store.map(|s| s.generation());
        let want = match (call, st.store) {
            _ if new && !accepted => UNFIT,
            ("mount", Some(s)) => map::mounted(&st.m, &s),
            ("format", Some(s)) => map::of_bytes(&st.m.volume, s.x_copy(), s.chunks()),
            (_, Some(s)) if moved && st.map != UNFIT => map::committed(&st.m.volume, &s, &map),
            _ => st.map,
        };
        if map != want {
            return Err(format!("map of free chunks\nthe table {}\nthe port {}", map::show(&want), map::show(&map)));
        }
        if accepted || !new {
            self.tally.maps.count(call, accepted, &st.map, &map);
            st.map = map;
        }
        Ok(())
    }

    /// `stops CALL ; LINE ; ..`. Prints the answer and how often the call was stopped.
    fn stops(&mut self, line: &str) -> Result<String, String> {
        let (mut stops, mut answer) = (0, String::new());
        self.line("save stops")?;
        for n in 0.. {
            let [before, call, after, lines @ ..] = &each_stop(line, n)[..] else { unreachable!() };
            let mut run = |line: &str| self.line(line).map_err(|why| format!("{n} writes left, {line}: {why}"));
            run("load stops")?;
            run(before)?;
            answer = run(call)?;
            run(after)?;
            if !self.session.st.m.refused_write {
                stops = n;
                break;
            }
            for line in lines {
                self.line(line).map_err(|why| format!("{n} writes left, then {line}: {why}"))?;
            }
        }
        Ok(format!("{answer} after {stops} stops"))
    }
}

/// `stops CALL ; LINE ; ..` is the call with 0, 1, 2, .. writes left, each time from the state that it
/// is given, until no write is refused, and the lines after each stop. Here one turn of it.
fn each_stop(line: &str, n: u64) -> Vec<String> {
    let text = line.split('#').next().unwrap().trim().strip_prefix("stops ").unwrap_or("");
    let mut lines: Vec<String> = text.split(';').map(|l| l.trim().into()).collect();
    lines.insert(0, format!("setleft {n}"));
    lines.insert(2, "setleft max".into());
    lines
}

/// The same script without `stops`.
pub fn spelled(lines: Vec<String>) -> Vec<String> {
    let (mut session, mut out) = (Session::new(true), vec![]);
    for line in lines {
        let mut say = |line: String| {
            session.line(&line);
            out.push(line);
            session.st.m.refused_write
        };
        if !line.starts_with("stops ") {
            say(line);
            continue;
        }
        say("save stops".into());
        for n in 0.. {
            say("load stops".into());
            let mut lines = each_stop(&line, n).into_iter();
            let refused = lines.by_ref().take(3).map(&mut say).last();
            if refused != Some(true) {
                break;
            }
            lines.for_each(|l| { say(l); });
        }
    }
    out
}

/// Runs a script. A line `= TEXT` is the answer to the lines before it.
pub fn play<'a>(lines: impl Iterator<Item = &'a str>, tally: &mut Tally) -> Result<(), Stop> {
    play_by(lines, tally, retires)
}

/// The same, with a rule for the names that S-5 retires.
pub fn play_by<'a>(lines: impl Iterator<Item = &'a str>, tally: &mut Tally, retires: Retires) -> Result<(), Stop> {
    let mut play = Play::new(tally);
    play.session.retires = retires;
    let mut printed: VecDeque<String> = VecDeque::new();
    let (mut answers, mut last) = (false, 0);
    for (k, line) in lines.enumerate() {
        last = k + 1;
        let stop = |why: String| Err(Stop { line: k + 1, why });
        if let Some(want) = line.strip_prefix("= ") {
            answers = true;
            match printed.pop_front() {
                Some(got) if got == want => continue,
                got => return stop(format!("expected {want}\nthe Rust {}", got.unwrap_or("says nothing".into()))),
            }
        }
        if answers && !words(line).is_empty() && !printed.is_empty() {
            return stop(format!("an answer is not in the script: {}", printed[0]));
        }
        match play.line(line) {
            Ok(text) => printed.extend(text.lines().map(String::from)),
            Err(why) => return stop(why),
        }
    }
    match printed.pop_front() {
        Some(more) if answers => Err(Stop { line: last, why: format!("an answer is not in the script: {more}") }),
        _ => Ok(()),
    }
}

/// A script with the answers that it prints, for a first recording.
pub fn answered<'a>(lines: impl Iterator<Item = &'a str>) -> Result<Vec<String>, Stop> {
    let mut tally = Tally::default();
    let mut play = Play::new(&mut tally);
    let mut out = vec![];
    for (k, line) in lines.enumerate().filter(|(_, l)| !l.starts_with("= ")) {
        let text = play.line(line).map_err(|why| Stop { line: k + 1, why })?;
        out.push(line.to_string());
        out.extend(text.lines().map(|t| format!("= {t}")));
    }
    Ok(out)
}

/// Whether two sides differ somewhere in a script; one that breaks off counts as no difference.
pub fn differs(lines: &[String]) -> bool {
    let run = || play(lines.iter().map(String::as_str), &mut Tally::default()).is_err();
    catch_unwind(AssertUnwindSafe(run)).unwrap_or(false)
}

/// Lines taken out, the longest runs first, as long as the difference stays.
pub fn smallest(mut lines: Vec<String>, differs: impl Fn(&[String]) -> bool) -> Vec<String> {
    std::panic::set_hook(Box::new(|_| {}));
    let mut run = lines.len() / 2;
    while run > 0 {
        let (mut at, mut less) = (0, false);
        while at < lines.len() {
            let mut fewer = lines.clone();
            fewer.drain(at..(at + run).min(lines.len()));
            if differs(&fewer) {
                (lines, less) = (fewer, true);
            } else {
                at += run;
            }
        }
        if !less || run > 1 {
            run /= 2;
        }
    }
    lines
}

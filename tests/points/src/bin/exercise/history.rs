//! A history: plain calls on the port and the model, held against the book.
use crate::Stats;
use driver::book::{Book, Call, Step, bytes_of};
use driver::{Kind, bad_appender, hex};
use points::args::Args;
use points::model::{Item, MARKS, line};
use points::{Pair, ledger};
use port::holds::holds;
use port::make::Rng;

pub const POINTS: [&str; 8] = ["p0", "p1", "p2", ".dot", "-", "sixteen-bytes-ok", "P", "0"];
const FILES: [&str; 6] = ["a", "t/1", "t/2", "t/u/3", "b.c", MARKS];

/// A point whose setting was accepted: what the book's file held then.
pub struct Pin {
    pub point: String,
    pub id: u32,
    pub payloads: Vec<Item>,
}

pub struct History<'a> {
    pub r: Rng,
    pub pair: Pair<'a>,
    pub book: Book,
    /// Only setting appends to MARKS: then a point reads as `pins` has it.
    pub kept: bool,
    pub pins: Vec<Pin>,
    names: Vec<String>,
    /// The last format's; each has its own, so that no record of an earlier store counts.
    seed: u64,
    /// The sector that is unreadable in each run of a setting.
    pub sector: Option<u64>,
    pub lines: Vec<String>,
    pub st: &'a mut Stats,
}

pub type Done = Result<(), String>;

/// The line of a call of the book.
fn line_text(call: &Call) -> String {
    let or = |d: &str| if d.is_empty() { "\"\"".to_string() } else { d.to_string() };
    let roll = |d: &Option<String>| d.as_ref().map_or("-".to_string(), |d| or(d));
    match call {
        Call::Format(size, seed) => format!("format {size} {seed}"),
        Call::Mount => "mount".into(),
        Call::Create(n, d) => format!("create {n} {}", roll(d)),
        Call::OpenAppend(n, d) => format!("open_append {n} {}", roll(d)),
        Call::Append(n, tag) => format!("append {}", or(&hex(&bytes_of(*n, *tag)))),
        Call::Sync => "sync".into(),
        Call::Delete(n) => format!("delete {n}"),
        Call::DeleteOldest(d) => format!("delete_oldest {}", or(d)),
        _ => unreachable!(),
    }
}

pub fn refusal_of(answer: &str) -> u32 {
    answer.strip_prefix("no ").map_or(0, |t| t.parse().unwrap())
}

impl<'a> History<'a> {
    pub fn new(seed: u64, pair: Pair<'a>, st: &'a mut Stats) -> Self {
        let mut r = Rng(seed);
        let (kept, names) = (r.one_in(2), FILES.iter().map(|n| n.to_string()).collect());
        History { r, pair, book: Book::new(0), kept, pins: vec![], names, seed: 0, sector: None, lines: vec![], st }
    }

    pub fn go(&mut self, args: &Args) -> Done {
        self.start()?;
        for _ in 0..15 + self.r.below(35) {
            if args.over(self.pair.calls()) {
                break;
            }
            self.st.acts += 1;
            if self.r.one_in(3) { self.setting()? } else { self.plain()? }
            holds(&self.pair.st().m.volume, &self.book, &mut self.st.held)?;
            let mounted = self.r.one_in(2);
            self.points(mounted, None)?;
        }
        Ok(())
    }

    pub fn say(&mut self, line: &str) -> Result<String, String> {
        self.lines.push(line.into());
        self.pair.line(line)
    }

    /// A volume, a format and some files; now and then nearly as many as there are slots.
    fn start(&mut self) -> Done {
        let r = &mut self.r;
        let (sectors, size) = match r.below(12) {
            0 => (64 + 128 + r.below(30), 1),
            1 => (64 + 70 + r.below(20), 1),
            _ => (80 + r.below(80), r.pick(&[1, 2, 3, 4, 8])),
        };
        let fill = r.pick(&["zero", "zero", "ff", "rand"]);
        let lines = [
            format!("volume {sectors} {fill} {} {}", r.below(1000), r.pick(&[0, 0, 0, 1, 511])),
            format!("entropy {}", r.below(4)),
            format!("token {}", r.pick(&[0, 7, u32::MAX - 1, u32::MAX])),
        ];
        let many = sectors > 64 + 66 && size == 1 && r.one_in(4);
        (self.seed, self.book) = (r.next() >> 8, Book::new(sectors));
        for line in lines {
            self.say(&line)?;
        }
        self.call(Call::Format(size, self.seed))?;
        if many {
            self.names.extend((0..66).map(|k| format!("f{k}")));
            for k in 0..58 + self.r.below(8) {
                self.call(Call::Create(format!("f{k}"), None))?;
            }
        }
        for name in ["a", "t/1"] {
            self.call(Call::Create(name.into(), None))?;
            for _ in 0..self.r.below(3) {
                self.append()?;
            }
        }
        Ok(())
    }

    /// The steps that the last call made, held against the book's: all of them, or a first part and 4.
    pub fn judge(&self, plan: &[Step], verdict: u32, refusal: u32) -> Result<usize, String> {
        let m = &self.pair.st().m;
        let seen: Vec<bool> = m.log.iter().filter(|w| w.1 != Kind::Other).map(|w| w.1 == Kind::Record).collect();
        if seen.len() > plan.len() || seen.iter().zip(plan).any(|(k, s)| *k != s.is_record()) {
            return Err(format!("steps {seen:?} (true: a record), the book's {plan:?}"));
        }
        let media = m.refused_write || m.refused_read;
        if (refusal == 4) != media {
            return Err(format!("refusal {refusal}, a sector was refused: {media}"));
        }
        if refusal != 4 && (refusal, seen.len()) != (verdict, plan.len()) {
            return Err(format!("refusal {refusal} after {} steps, the book's {verdict} after {plan:?}", seen.len()));
        }
        if m.refused_write && seen.len() == plan.len() {
            return Err("a write was refused after every step".into());
        }
        Ok(seen.len())
    }

    /// A plain call.
    fn call(&mut self, call: Call) -> Done {
        let (plan, mut verdict) = self.book.plan(&call);
        if let (Call::Append(..) | Call::Sync, Some(a), Some(s)) = (&call, &self.pair.st().app, &self.pair.st().store)
            && bad_appender(a, s)
        {
            verdict = 3; // one of a store with other chunks
        }
        let refusal = refusal_of(&self.say(&line_text(&call))?);
        let done = self.judge(&plan, verdict, refusal)?;
        self.book.enter(&call, &plan, done, refusal);
        self.forget();
        Ok(())
    }

    /// With MARKS its points go.
    pub fn forget(&mut self) {
        if ledger::file(&self.book, MARKS).is_none() {
            self.pins.clear();
        }
    }

    fn name(&mut self) -> String {
        let k = self.r.below(self.names.len() as u64) as usize;
        self.names[k].clone()
    }

    /// Mostly that of a file that is there.
    pub fn held(&mut self) -> String {
        if self.book.files.is_empty() || self.r.one_in(8) {
            return self.name();
        }
        let k = self.r.below(self.book.files.len() as u64) as usize;
        self.book.files[k].name.clone()
    }

    fn rollover(&mut self) -> Option<String> {
        self.r.pick(&[None, None, Some(""), Some("t/")]).map(String::from)
    }

    /// A plain call, perhaps stopped, perhaps with an unreadable sector.
    fn plain(&mut self) -> Done {
        if self.r.one_in(4) {
            let n = self.r.below(14);
            self.say(&format!("setleft {n}"))?;
        }
        self.unreadable(20)?;
        self.any()?;
        self.say("setleft max")?;
        self.say("unreadable none")?;
        Ok(())
    }

    fn any(&mut self) -> Done {
        match self.r.below(24) {
            0..=4 => {
                let call = Call::Create(self.name(), self.rollover());
                self.call(call)
            }
            5..=8 => {
                let call = Call::OpenAppend(self.held(), self.rollover());
                self.call(call)
            }
            9..=16 => self.append(),
            17 | 18 => self.sync(),
            19 => {
                let name = self.held();
                if name != MARKS || self.r.one_in(3) { self.call(Call::Delete(name)) } else { Ok(()) }
            }
            20 => {
                let dir = self.r.pick(&["", "t/", "t/u/"]);
                self.call(Call::DeleteOldest(dir.into()))
            }
            21 if self.r.one_in(6) => {
                self.seed += 1;
                let size = self.r.pick(&[1, 2, 3, 4, 8, 0, 513]);
                self.call(Call::Format(size, self.seed))
            }
            _ => self.mount(),
        }
    }

    pub fn mount(&mut self) -> Done {
        if self.r.one_in(2) {
            let token = self.r.pick(&[0, 7, u32::MAX]);
            self.say(&format!("token {token}"))?;
        }
        self.call(Call::Mount)
    }

    pub fn unreadable(&mut self, one_in: u64) -> Done {
        if self.r.one_in(one_in) {
            let n = self.r.below(self.pair.st().m.sectors());
            self.say(&format!("unreadable {n}"))?;
        }
        Ok(())
    }

    /// Whether the appender in hand is that of MARKS.
    fn at_marks(&self) -> bool {
        let id = ledger::file(&self.book, MARKS).map(|f| f.id);
        id.is_some() && self.pair.st().app.as_ref().map(|a| a.x_id()) == id
    }

    fn append(&mut self) -> Done {
        let r = &mut self.r;
        let n = match r.below(6) {
            0 => 486,
            1 => 487,
            2 => r.below(2500),
            _ => r.below(500),
        };
        let (call, few) = (Call::Append(n as usize, r.next()), Call::Append(r.below(20) as usize, 1));
        if self.pair.st().app.is_none() {
            return Ok(());
        }
        let (marks, unwritten) = (self.at_marks(), self.book.unwritten.len());
        if marks && self.kept {
            // bytes that never become a record append nothing to MARKS
            return if unwritten < 400 { self.call(few) } else { Ok(()) };
        }
        if marks && unwritten == 0 && self.book.usable() {
            return self.line_by_hand();
        }
        self.call(call)?;
        if self.r.one_in(2) { self.call(Call::Sync) } else { Ok(()) }
    }

    fn sync(&mut self) -> Done {
        let barred = self.kept && self.at_marks() && !self.book.unwritten.is_empty();
        if barred || self.pair.st().app.is_none() { Ok(()) } else { self.call(Call::Sync) }
    }

    /// A record of MARKS by hand: a line, or nearly one.
    fn line_by_hand(&mut self) -> Done {
        let (r, files) = (&mut self.r, self.book.files.len() as u64);
        let point = r.pick(&POINTS);
        let mut bytes = line(point.as_bytes(), r.below(files + 4) as u32, r.below(20) as u32);
        match r.below(8) {
            0 => bytes.push(b' '),
            1 => bytes.insert(point.len() + 1, b'0'),
            2 => bytes.truncate(bytes.len() - 1),
            3 => bytes.extend_from_within(..),
            4 => bytes = line(point.as_bytes(), u32::MAX - r.below(2) as u32, u32::MAX),
            5 => bytes = format!("{point}\t1\t429496729{}\n", 5 + r.below(2)).into_bytes(),
            _ => {}
        }
        let call = Call::Append(bytes.len(), 0);
        let (plan, verdict) = self.book.plan(&call);
        let refusal = refusal_of(&self.say(&format!("append {}", hex(&bytes)))?);
        self.judge(&plan, verdict, refusal)?;
        // no record is made of so few bytes: the book's are these
        self.book.enter(&call, &plan, 0, refusal);
        self.book.unwritten.clone_from(&bytes);
        self.call(Call::Sync)
    }
}

//! Settings with a stop at each of their writes, and readings up to every point.
use crate::history::{Done, History, POINTS, Pin, refusal_of};
use driver::book::Book;
use driver::script::bytes_of;
use points::ledger::{self, Setting};
use points::model::Item;
use port::bridge::{NO_APPENDER, Words, appender_words, medium_words, store_row};
use port::holds::holds;

const BAD_POINTS: [&str; 5] = ["\"\"", "a/b", "seventeen-bytes-x", "\\612062", "\\c3a9"];
const BAD_FILES: [&str; 4] = ["\"\"", "/", "a//b", "\\ff"];

/// What a reader up to a point gave, or its refusal.
type Reading = Result<Vec<Item>, u32>;

/// Volume, medium record, store value with its map and checksums, appender.
type Left = (Vec<u8>, [u64; 4], ([u64; 43], [u32; 24]), Words);

/// The bytes of a word as text; what is no text is no name either.
fn text_of(word: &str) -> String {
    String::from_utf8(bytes_of(word).into_owned()).unwrap_or("\u{e9}".into())
}

fn brief(r: &Reading) -> String {
    format!("{r:?}").chars().take(160).collect()
}

impl History<'_> {
    /// A setting with 0, 1, 2, .. writes left, each from the same state, until none is refused; it goes on after one of these.
    pub fn setting(&mut self) -> Done {
        let point = if self.r.one_in(12) { self.r.pick(&BAD_POINTS) } else { self.r.pick(&POINTS) };
        let name = if self.r.one_in(20) { self.r.pick(&BAD_FILES).to_string() } else { self.held() };
        let (set, plan) = (format!("set_point {point} {name}"), Setting::plan(&self.book, &text_of(point), &text_of(&name)));
        self.st.settings += 1;
        let before = self.points(true, Some(point))?;
        self.unreadable(15)?;
        self.say("save set")?;
        if self.r.one_in(16) {
            self.each_sector(&set, &plan, point)?;
        }
        let mut last = 0;
        for left in 0.. {
            let (book, refusal) = self.set(left, &set, &plan)?;
            let stopped = self.pair.st().m.refused_write;
            self.st.accepted += u64::from(refusal == 0);
            self.st.stopped += u64::from(stopped);
            self.held_after(book, &before, point, refusal)?;
            if !stopped {
                last = left;
                break;
            }
        }
        let left = if self.r.one_in(3) { self.r.below(last + 1) } else { last };
        let (book, refusal) = self.set(left, &set, &plan)?;
        self.counts_as(left, &plan)?;
        if refusal == 0 {
            let f = ledger::file(&self.book, &name).unwrap();
            let payloads = f.payloads.iter().cloned().map(Item::Payload).collect();
            self.pins.push(Pin { point: point.into(), id: f.id, payloads });
            self.st.pins += 1;
        }
        self.book = book;
        self.forget();
        self.say("setleft max")?;
        self.say("unreadable none")?;
        if left < last && self.r.one_in(2) { self.mount() } else { Ok(()) }
    }

    /// The setting, and a reading up to its point, with each sector unreadable in turn.
    fn each_sector(&mut self, set: &str, plan: &Setting, point: &str) -> Done {
        for n in 0..self.pair.st().m.sectors() {
            self.sector = Some(n);
            self.set(u32::MAX.into(), set, plan)?;
            self.say(&format!("read_point {point}"))?;
            self.say("upto_next")?;
        }
        self.sector = None;
        self.st.sectors += 1;
        Ok(())
    }

    /// One run of a setting from the state that was saved: the book after it, and the refusal.
    fn set(&mut self, left: u64, set: &str, plan: &Setting) -> Result<(Book, u32), String> {
        self.say("load set")?;
        self.say(&format!("setleft {left}"))?;
        if let Some(n) = self.sector {
            self.say(&format!("unreadable {n}"))?;
        }
        let answer = self.say(set)?;
        let (refusal, opened) = (refusal_of(&answer), self.pair.opened);
        self.st.runs += 1;
        let done = self.judge(&plan.steps(), plan.verdict, refusal)?;
        if refusal == 0 && answer != format!("ok {}", plan.number) {
            return Err(format!("{answer}, the book's number is {}", plan.number));
        }
        // a read may be refused before the opening, where the book's plan goes on
        if opened != plan.opens(done) && (opened || !self.pair.st().m.refused_read) {
            return Err(format!("refusal {refusal} after {done} steps: MARKS opened: {opened}"));
        }
        let mut book = self.book.clone();
        plan.enter(&mut book, done, opened, refusal);
        let writer = self.pair.st().store.as_ref().and_then(|s| s.x_writer()).map(|w| w.1);
        if writer != book.open {
            return Err(format!("open file {writer:?}, the book's {:?}", book.open));
        }
        Ok((book, refusal))
    }

    /// The calls that the setting makes, one by one from the same state until one is refused, leave the same volume, medium record
    /// and handles.
    fn counts_as(&mut self, left: u64, plan: &Setting) -> Done {
        let before_them = self.pair.st().m.refused_read && !self.pair.opened;
        let set = self.left_behind();
        self.say("load set")?;
        self.say(&format!("setleft {left}"))?;
        for call in plan.calls() {
            if before_them || self.say(&call)?.starts_with("no") {
                break;
            }
        }
        if self.left_behind() == set { Ok(()) } else { Err("the calls that the setting makes leave something else".into()) }
    }

    fn left_behind(&self) -> Left {
        let st = self.pair.st();
        let appender = st.app.as_ref().map_or(NO_APPENDER, |a| appender_words(a, ([0; 40], 0)));
        (st.m.volume.clone(), medium_words(&st.m), store_row(st).unwrap(), appender)
    }

    /// After a run of a setting and a mount: files and payloads are the book's, the point is there exactly if the setting was
    /// accepted, and every other point reads as before. (A line by hand may name MARKS and a number past its end: that one grows.)
    fn held_after(&mut self, book: Book, before: &[(&str, Reading)], point: &str, refusal: u32) -> Done {
        holds(&self.pair.st().m.volume, &book, &mut self.st.held)?;
        let (was, kept) = (std::mem::replace(&mut self.book, book), std::mem::replace(&mut self.kept, false));
        let after = self.points(true, Some(point))?;
        (self.book, self.kept) = (was, kept);
        for ((p, a), (_, b)) in after.iter().zip(before) {
            let set = *p == point && refusal == 0;
            let fine = if set { a.is_ok() && *b == Err(9) } else { a == b || !kept && a.is_ok() && b.is_ok() };
            if !fine {
                return Err(format!("refusal {refusal}, point {p}: before {}, after {}", brief(b), brief(a)));
            }
        }
        Ok(())
    }

    /// Every point read to its end, by a mounted store value or the one in hand, with every sector readable: what the book says,
    /// and where only setting appended to MARKS what the file held when it was set. Of those that are not there `point` is read,
    /// and some of the others.
    pub fn points(&mut self, mounted: bool, point: Option<&str>) -> Result<Vec<(&'static str, Reading)>, String> {
        for line in ["save points", "setleft 0", "unreadable none"] {
            self.say(line)?;
        }
        if mounted {
            self.say("mount")?;
        }
        let mut all = vec![];
        for p in POINTS {
            let want = ledger::reading(&self.book, p);
            let read = want != Err(9) || point == Some(p) || self.r.one_in(4);
            let got = if read { self.read(p)? } else { Err(9) };
            if got != want {
                return Err(format!("point {p}: {}, the book's {}", brief(&got), brief(&want)));
            }
            if self.kept && got != self.pinned(p) {
                return Err(format!("point {p}: {}, when it was set {}", brief(&got), brief(&self.pinned(p))));
            }
            all.push((p, got));
        }
        self.say("load points")?;
        Ok(all)
    }

    /// What the reader gave when the point was set.
    fn pinned(&self, point: &str) -> Reading {
        let pin = self.pins.iter().find(|x| x.point == point).ok_or(9u32)?;
        if self.book.files.iter().any(|f| f.id == pin.id) { Ok(pin.payloads.clone()) } else { Err(15) }
    }

    /// A point read to its end.
    fn read(&mut self, point: &str) -> Result<Reading, String> {
        self.st.readings += 1;
        let refusal = refusal_of(&self.say(&format!("read_point {point}"))?);
        if refusal != 0 {
            self.st.lost += u64::from(refusal == 15);
            return Ok(Err(refusal));
        }
        self.st.read += 1;
        let mut items = vec![];
        loop {
            let refusal = refusal_of(&self.say("upto_next")?);
            match self.pair.item.take() {
                None => return Ok(Err(refusal)),
                Some(Item::End) => return Ok(Ok(items)),
                Some(item) => items.push(item),
            }
            self.st.payloads += 1;
        }
    }
}

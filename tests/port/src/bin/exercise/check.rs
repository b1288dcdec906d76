//! A call of a history held against the book, at each number of writes left up to those that it has.
use crate::faults::{Shim, changed, is_whole_header, sector};
use driver::book::{Book, Call, Step};
use driver::dotted;
use port::holds::{Held, holds, same_rows};
use port::world::{Next, Told, Turn, World};
use std::collections::BTreeMap;

/// Steps and refusals are counted of the histories' own calls, not of the further runs of each.
#[derive(Default)]
pub struct Stats {
    pub calls: u64,
    pub stopped: u64,
    pub stopped_inside: u64,
    pub runs: u64,
    /// Of each call, accepted and refused by number.
    pub answers: BTreeMap<String, [u64; 17]>,
    pub formats: u64,
    pub creates: u64,
    pub create_rollovers: u64,
    pub rollovers: u64,
    pub deletes: u64,
    pub extensions: u64,
    pub reopened: u64,
    pub records: u64,
    pub nexts: u64,
    pub held: Held,
    pub most_chunks: u32,
    /// Histories with calls from before 02, S-5, and what became of files with dot names.
    pub earlier: u64,
    pub dots: Dots,
}

#[derive(Default)]
pub struct Dots {
    pub deleted: u64,
    pub rolled: u64,
    /// Calls that were to delete one or roll one over, and were stopped before or after it.
    pub stopped: u64,
}

/// Which of the runs with fewer writes left are read back too; the last always is.
#[derive(Clone, Copy, PartialEq, Eq)]
pub enum Look {
    Last,
    Some,
    All,
}

/// Why a call failed, and how many writes it had left.
pub struct Failure {
    pub left: u32,
    pub why: String,
}

/// What the book foretells; number 3, the port's own, comes before 1 and the state.
fn plan(world: &World, book: &Book, call: &Call) -> (Vec<Step>, u32) {
    let bad = match call {
        Call::Format(..) | Call::Mount => false,
        Call::Append(..) | Call::Sync => world.bad_store() || world.bad_appender(),
        Call::Next | Call::Seek(_) => world.bad_store() || world.bad_reader(),
        _ => world.bad_store(),
    };
    if bad { (vec![], 3) } else { book.plan(call) }
}

/// The turn from a world and a book; both become what the call leaves. A stop after n writes is the call
/// with n left, so the sectors in which two runs differ are the writes of the call, one by one: a header
/// with the magic is a commit's last write, a data sector a record's.
pub fn one(shim: &mut Shim, world: &mut World, book: &mut Book, t: &Turn, look: Look, st: &mut Stats) -> Result<(), Failure> {
    let (plan, verdict) = plan(world, book, &t.op.call);
    shim.begin(world, t);
    let (mut whole, all) = shim.run(world, t, u32::MAX);
    let writes = u32::MAX - whole.medium[0] as u32;
    let last = t.op.left.unwrap_or(u32::MAX).min(writes);
    let (mut held, mut records) = (world.volume.clone(), vec![]);
    for left in 0..=last {
        let fail = |why: String| Failure { left, why };
        let (mut after, told) = shim.run(world, t, left);
        st.runs += 1;
        let at = changed(&held, &after.volume);
        for n in &at {
            if *n >= 64 || is_whole_header(*n, sector(&after.volume, *n)) {
                records.push(*n >= 64);
            }
        }
        let run = Run { before: world, after: &after, told: &told, call: &t.op.call, plan: &plan, verdict, done: records.len() };
        run.judge(&records, left < writes, t.op.unreadable.is_some()).map_err(fail)?;
        let seen = left == last || look == Look::All || look == Look::Some && (writes < 30 || left % (writes / 8) == 0);
        if seen {
            let mut after_book = book.clone();
            run.enter(&mut after_book).map_err(fail)?;
            holds(&after.volume, &after_book, &mut st.held).map_err(fail)?;
            if left == last {
                run.count(book, left < writes, st);
                st.nexts += u64::from(told.next.is_some());
                *book = after_book;
            }
        }
        if left < writes && records.len() == plan.len() {
            return Err(fail("a write was refused after every step".into()));
        }
        if at.len() > usize::from(left > 0) {
            return Err(fail(format!("sectors {at:?} changed by write {left}")));
        }
        if left == writes {
            whole.medium[0] = after.medium[0];
            if whole != after || told != all {
                return Err(fail("with just enough writes left it is another call".into()));
            }
        }
        if left == last {
            after.medium[0] = 0;
            *world = after;
            return Ok(());
        }
        held = after.volume;
    }
    unreachable!()
}

/// One run of a call.
struct Run<'a> {
    before: &'a World,
    after: &'a World,
    told: &'a Told,
    call: &'a Call,
    plan: &'a [Step],
    verdict: u32,
    /// steps made
    done: usize,
}

impl Run<'_> {
    /// Refusal and steps: all of the plan, or a first part of it and 4.
    fn judge(&self, records: &[bool], stopped: bool, unreadable: bool) -> Result<(), String> {
        let refusal = self.told.refusal;
        let steps = || -> Vec<&str> { records.iter().map(|r| if *r { "record" } else { "commit" }).collect() };
        if records.len() > self.plan.len() || records.iter().zip(self.plan).any(|(r, s)| *r != s.is_record()) {
            return Err(format!("steps {:?}, the book's {:?}", steps(), self.plan));
        }
        if stopped && refusal != 4 {
            return Err(format!("a write was refused, but the answer is {refusal}"));
        }
        if refusal == 4 && !stopped && !unreadable {
            return Err("4, but no write was refused".into());
        }
        if refusal != 4 && (refusal != self.verdict || self.done != self.plan.len()) {
            return Err(format!("refusal {refusal} after {:?}, the book's {} after {:?}", steps(), self.verdict, self.plan));
        }
        if stopped && self.after.medium[0] != 0 {
            return Err("a write was refused with writes left".into());
        }
        if self.after.bad_store() && !self.before.bad_store() {
            return Err("number 3 would refuse the store value".into());
        }
        Ok(())
    }

    /// Enters the run in the book, and compares what the call told.
    fn enter(&self, book: &mut Book) -> Result<(), String> {
        let (told, reader) = (self.told, &self.after.reader);
        let name_of = |id: u32, book: &Book| book.files.iter().find(|f| f.id == id).map(|f| f.name.clone());
        let gone = match (self.call, self.plan) {
            (Call::DeleteOldest(_), [Step::Gone(id)]) if told.refusal == 0 => name_of(*id, book),
            _ => None,
        };
        if told.name != gone {
            return Err(format!("{:?} went, the book's {gone:?}", told.name));
        }
        if let Some(next) = &told.next {
            let want = book.next().ok().map(|n| n.0.map_or(Next::End, |p| Next::Payload(p.to_vec())));
            if want.as_ref() != Some(next) {
                return Err(format!("next gives {next:?}, the book's {want:?}"));
            }
        }
        book.enter(self.call, self.plan, self.done, told.refusal);
        if let Some(c) = &mut book.reader {
            let at = (reader[8] as u32, reader[9] as u32);
            // only a read that was refused after entering a later chunk moves it otherwise
            if told.refusal == 4 && *self.call == Call::Next && at.0 > c.position && at.1 == 0 {
                (c.position, c.index) = at;
            }
            if at != (c.position, c.index) {
                return Err(format!("reader at {at:?}, the book's {:?}", (c.position, c.index)));
            }
        }
        let open = (self.after.store[7] != 0).then_some(self.after.store[9] as u32);
        if open != book.open {
            return Err(format!("open file {open:?}, the book's {:?}", book.open));
        }
        if told.refusal == 0 { self.answer(book) } else { Ok(()) }
    }

    fn answer(&self, book: &Book) -> Result<(), String> {
        let file = |n: &str| book.files.iter().find(|f| f.name == n).unwrap();
        let want = match self.call {
            Call::Format(..) | Call::Mount => book.total.into(),
            Call::Create(n, _) | Call::OpenAppend(n, _) | Call::Find(n) => file(n).id.into(),
            Call::Append(..) | Call::Sync => book.room() as u64,
            Call::DeleteOldest(_) => self.plan.len() as u64,
            Call::List(d) => {
                same_rows(&self.told.rows, book, d)?;
                self.told.rows.len() as u64
            }
            Call::Reader(n) => file(n).chunks.len() as u64,
            Call::Seek(_) => book.reader.map_or(0, |c| (c.position * book.size + c.index).into()),
            Call::Next | Call::Delete(_) => 0,
        };
        if want == self.told.answer { Ok(()) } else { Err(format!("answer {}, the book's {want}", self.told.answer)) }
    }

    fn count_dots(&self, book: &Book, stopped: bool, dots: &mut Dots) {
        let goes = |s: &&Step| matches!(s, Step::Gone(id) if book.files.iter().any(|f| f.id == *id && dotted(f.name.as_bytes())));
        dots.stopped += u64::from(stopped && self.plan.iter().any(|s| goes(&s)));
        let gone = self.plan[..self.done].iter().filter(goes).count() as u64;
        *if matches!(self.call, Call::Delete(_) | Call::DeleteOldest(_)) { &mut dots.deleted } else { &mut dots.rolled } += gone;
    }

    fn count(&self, book: &Book, stopped: bool, st: &mut Stats) {
        st.calls += 1;
        st.stopped += u64::from(stopped);
        st.stopped_inside += u64::from(stopped && self.before.volume != self.after.volume);
        let name: String = format!("{:?}", self.call).chars().take_while(char::is_ascii_alphabetic).collect();
        st.answers.entry(name).or_default()[self.told.refusal.min(16) as usize] += 1;
        self.count_dots(book, stopped, &mut st.dots);
        let opened = matches!(self.call, Call::OpenAppend(..)) && self.told.refusal == 0;
        st.reopened += u64::from(opened && self.after.appender[5] == 1);
        for s in &self.plan[..self.done] {
            let n = match (s, self.call) {
                (Step::Format, _) => &mut st.formats,
                (Step::Create, _) => &mut st.creates,
                (Step::Extend, _) => &mut st.extensions,
                (Step::Record, _) => &mut st.records,
                (Step::Gone(_), Call::Create(..)) => &mut st.create_rollovers,
                (Step::Gone(_), Call::Append(..) | Call::Sync) => &mut st.rollovers,
                (Step::Gone(_), _) => &mut st.deletes,
            };
            *n += 1;
        }
        st.most_chunks = st.most_chunks.max(book.total);
    }
}

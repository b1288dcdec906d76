//! S-1 in the port beside a model of it over the unchanged Rust. A script (the language is `oracle`'s, with
//! the words below) runs on the Rust and the model, and each call is put to the port too, with the same bytes,
//! handles and buffers.
//!   set_point POINT NAME      the record number
//!   read_point POINT          the limit; the reader up to it is then in hand
//!   upto_next                 payload, hole or end, as next
//!   upto LIMIT                the reader in hand becomes one up to the limit
//!   set upto FIELD VALUE      limit, or a field of its reader
pub mod args;
pub mod bridge;
pub mod faults;
pub mod ledger;
pub mod model;
use bridge::Told;
use driver::hex;
use driver::script::{Lent, State, bytes_of, num, words};
use faults::Fault;
use model::{Item, Model, Upto};
use port::{Play, Tally};
use std::collections::{BTreeMap, HashMap};

/// The calls of S-1, with every refusal that each can give.
pub const CALLS: &[(&str, &[u32])] = &[
    ("set_point", &[1, 3, 4, 5, 6, 7, 9, 10, 11, 12, 13, 14]),
    ("read_point", &[3, 4, 7, 9, 13, 15]),
    ("upto_next", &[2, 3, 4, 7, 11]),
];

/// How often each call of S-1 was accepted (0) or refused with each number.
#[derive(Default)]
pub struct Counts(BTreeMap<(&'static str, u32), u64>);

impl Counts {
    fn count(&mut self, call: &'static str, refusal: u32) {
        *self.0.entry((call, refusal)).or_default() += 1;
    }
    pub fn calls(&self) -> u64 {
        self.0.values().sum()
    }
    /// A line for each call: accepted, and refused as NUMBER:COUNT.
    pub fn show(&self) -> String {
        let line = |call: &str| {
            let of = |r: u32| self.0.get(&(CALLS.iter().find(|c| c.0 == call).unwrap().0, r)).copied().unwrap_or(0);
            let refused: Vec<_> = (1..16).map(|r| (r, of(r))).filter(|(_, n)| *n > 0).collect();
            let all: u64 = of(0) + refused.iter().map(|r| r.1).sum::<u64>();
            let refused: Vec<_> = refused.iter().map(|(r, n)| format!("{r}:{n}")).collect();
            format!("{call}: {all} calls, {} accepted, refused {}", of(0), refused.join(" "))
        };
        CALLS.iter().map(|c| line(c.0)).collect::<Vec<_>>().join("\n")
    }
    /// Each call's answers that were not seen, and those that it cannot give.
    pub fn wrong(&self) -> Vec<String> {
        let mut wrong = vec![];
        for (call, refusals) in CALLS {
            let missing = [0].iter().chain(*refusals).filter(|r| !self.0.contains_key(&(*call, **r)));
            wrong.extend(missing.map(|r| format!("{call} {r} did not occur")));
        }
        for (call, r) in self.0.keys() {
            if *r != 0 && !CALLS.iter().any(|(c, refusals)| c == call && refusals.contains(r)) {
                wrong.push(format!("{call} {r} occurred"));
            }
        }
        wrong
    }
}

/// A script as it runs on both.
pub struct Pair<'a> {
    pub play: Play<'a>,
    pub counts: &'a mut Counts,
    pub model: Model,
    pub upto: Option<Upto>,
    /// Of the last setting.
    pub opened: bool,
    /// What the last upto_next gave, and of a hole the port's count of blank sectors, which is the one made in the volume.
    pub item: Option<Item>,
    pub blank: u64,
    saved: HashMap<String, Option<Upto>>,
}

impl<'a> Pair<'a> {
    pub fn new(tally: &'a mut Tally, counts: &'a mut Counts, fault: Fault) -> Self {
        Pair { play: Play::new(tally), counts, model: Model { fault }, upto: None, opened: false, item: None, blank: 0, saved: HashMap::new() }
    }

    pub fn st(&self) -> &State {
        &self.play.session.st
    }

    /// The calls that were put to both.
    pub fn calls(&self) -> u64 {
        self.play.tally.calls() + self.counts.calls()
    }

    /// Runs a line; what it prints, or what differs.
    pub fn line(&mut self, line: &str) -> Result<String, String> {
        let w = words(line);
        let word = |i: usize| bytes_of(w.get(i).copied().unwrap_or("\"\"")).into_owned();
        match w.first().copied().unwrap_or("") {
            "set_point" | "read_point" | "upto_next" if self.st().store.is_none() => Ok("-- no store".into()),
            "set_point" => self.set_point(&word(1), &word(2)).map(|r| said(r.map(|n| n.to_string()))),
            "read_point" => self.read_point(&word(1)).map(|r| said(r.map(|n| n.to_string()))),
            "upto_next" => self.upto_next().map(|r| said(r.map(|i| shown(&i)))),
            "upto" => {
                self.upto = self.st().reader.map(|reader| Upto { reader, limit: w.get(1).and_then(|w| num(w)).unwrap_or(0) as u32 });
                Ok(String::new())
            }
            "set" if w.get(1) == Some(&"upto") => {
                let v = w.get(3).and_then(|w| num(w)).unwrap_or(0);
                let set = self.upto.as_mut().is_some_and(|u| match w[2] {
                    "limit" => {
                        u.limit = v as u32;
                        true
                    }
                    field => u.reader.x_set(field, v),
                });
                Ok(if set { String::new() } else { "-- field".into() })
            }
            _ => {
                match w[..] {
                    ["save", x] => drop(self.saved.insert(x.into(), self.upto)),
                    ["load", x] => self.upto = self.saved.get(x).copied().flatten(),
                    _ => {}
                }
                self.play.line(line)
            }
        }
    }

    /// Set a point: the record number or the refusal.
    pub fn set_point(&mut self, point: &[u8], name: &[u8]) -> Result<Result<u32, u32>, String> {
        let (port, volume) = bridge::set_point(self.st(), point, name);
        let before = self.st().store;
        let st = &mut self.play.session.st;
        let marked = self.model.set(st.store.as_mut().unwrap(), &mut st.m, point, name);
        let told = Told::marked(st, &marked);
        self.counts.count("set_point", marked.answer.err().unwrap_or(0));
        if let Some(why) = told.differs(&port) {
            return Err(why);
        }
        if volume != st.m.volume {
            let at = bridge::first(&st.m.volume, &volume);
            return Err(format!("volume, sector {} from byte {}", at / 512, at % 512));
        }
        self.opened = marked.appender.is_some();
        if marked.appender.is_some() {
            st.app = marked.appender;
        }
        self.play.keep("set_point", marked.answer.is_ok(), before, port.map)?;
        Ok(marked.answer)
    }

    /// Read up to a point: the limit or the refusal. Accepted, the reader is then in hand.
    pub fn read_point(&mut self, point: &[u8]) -> Result<Result<u32, u32>, String> {
        let port = bridge::read_point(self.st(), point);
        let st = &mut self.play.session.st;
        let upto = self.model.read(st.store.as_ref().unwrap(), &mut st.m, point);
        self.counts.count("read_point", upto.err().unwrap_or(0));
        if let Some(why) = Told::opened(st, &upto).differs(&port) {
            return Err(why);
        }
        self.upto = upto.ok().or(self.upto);
        Ok(upto.map(|u| u.limit))
    }

    /// The next of the reader in hand. Once all below the limit was given nothing is read.
    pub fn upto_next(&mut self) -> Result<Result<Item, u32>, String> {
        let Some(mut upto) = self.upto else { return Ok(Err(11)) };
        let mut out = Lent::new(0, 0, self.play.session.lent.out.len()).out;
        let port = bridge::upto_next(self.st(), &upto.reader, upto.limit, out.clone());
        let st = &mut self.play.session.st;
        let item = self.model.next(&mut upto, st.store.as_ref().unwrap(), &mut st.m, &mut out);
        self.counts.count("upto_next", item.as_ref().err().copied().unwrap_or(0));
        if let Some(why) = Told::gave(st, &upto, &item, out).differs(&port) {
            return Err(why);
        }
        self.upto = Some(upto);
        (self.item, self.blank) = (item.as_ref().ok().cloned(), port.blank());
        Ok(item)
    }

    /// All that a reader up to a point gives, without its end, and of each the blank sectors.
    pub fn read_up(&mut self, point: &[u8]) -> Result<Result<Vec<(Item, u64)>, u32>, String> {
        if let Err(n) = self.read_point(point)? {
            return Ok(Err(n));
        }
        let mut items = vec![];
        loop {
            match self.upto_next()? {
                Err(n) => return Ok(Err(n)),
                Ok(Item::End) => return Ok(Ok(items)),
                Ok(item) => items.push((item, self.blank)),
            }
        }
    }
}

/// `ok ..` or `no N`.
pub fn said(r: Result<String, u32>) -> String {
    r.map_or_else(|n| format!("no {n}"), |t| format!("ok {t}"))
}

pub fn shown(item: &Item) -> String {
    match item {
        Item::Payload(p) if p.len() > 40 => format!("payload {} crc {:08x}", p.len(), driver::crc32(p)),
        Item::Payload(p) => format!("payload {} {}", p.len(), hex(p)),
        Item::Hole(from, to) => format!("hole {from} {to}"),
        Item::End => "end".into(),
    }
}

/// Runs a script; the first line that differs (from 0), and how.
pub fn run(lines: &[String], fault: Fault) -> Option<(usize, String)> {
    let (mut tally, mut counts) = (Tally::default(), Counts::default());
    let mut pair = Pair::new(&mut tally, &mut counts, fault);
    lines.iter().enumerate().find_map(|(k, l)| pair.line(l).err().map(|why| (k, why)))
}

//! Calls of S-1 woven into a random script of tests/port, on what its lines have left.
use driver::{Medium, Reader, Store, bad_reader, bad_store, hex};
use points::Pair;
use points::model::{Item, MARKS, line, next_item};
use port::make::{BAD_NAMES, Kind, NAMES, Rng, round};

const POINTS: [&str; 5] = ["p", "q", "pp", "Point-16.bytes_x", "0"];
const BAD_POINTS: [&str; 6] = ["\"\"", "a/b", "seventeen-bytes-x", "\\612062", "\\c3a9", "\\00"];

pub struct Weaver<'a> {
    r: Rng,
    pair: Pair<'a>,
    pub lines: Vec<String>,
    cuts: &'a mut Cuts,
}

/// Readings held against the plain reader.
#[derive(Default)]
pub struct Cuts {
    pub read: u64,
    /// The last that came was a hole that ends at the limit; and with blank sectors.
    pub holes: u64,
    pub blank: u64,
    pub refused: u64,
}

pub type Done = Result<(), String>;

/// What the plain reader gives below a number, a hole that crosses it ending there: from its answers alone. The second is
/// the refusal that ends it.
fn cut(store: &Store, m: &mut Medium, mut r: Reader, limit: u32) -> (Vec<Item>, Option<u32>) {
    let mut items = vec![];
    while r.record(store) < limit {
        match next_item(&mut r, store, m) {
            Err(n) => return (items, (r.record(store) < limit).then_some(n)),
            Ok(Item::End) => break,
            Ok(Item::Payload(_)) if r.record(store) > limit => break,
            Ok(Item::Hole(from, _)) if from >= limit => break,
            Ok(Item::Hole(from, to)) => items.push(Item::Hole(from, to.min(limit))),
            Ok(item) => items.push(item),
        }
    }
    (items, None)
}

impl<'a> Weaver<'a> {
    pub fn new(seed: u64, pair: Pair<'a>, cuts: &'a mut Cuts) -> Self {
        Weaver { r: Rng(seed), pair, lines: vec![], cuts }
    }

    /// A round of tests/port, with calls of S-1 between its lines.
    pub fn round(&mut self, kind: Kind, seed: u64) -> Done {
        let often = self.r.pick(&[1, 2, 4]);
        for line in round(kind, seed) {
            let stops = line.starts_with("stops");
            self.say(line)?;
            if !stops && self.pair.st().store.is_some() && self.r.one_in(often) {
                self.between()?;
            }
        }
        Ok(())
    }

    fn say(&mut self, line: String) -> Result<String, String> {
        self.lines.push(line);
        self.pair.line(self.lines.last().unwrap())
    }

    fn point(&mut self) -> &'static str {
        if self.r.one_in(15) { self.r.pick(&BAD_POINTS) } else { self.r.pick(&POINTS) }
    }

    /// Mostly that of a file which the directory in hand has.
    fn file(&mut self) -> String {
        let st = self.pair.st();
        let copy = st.store.as_ref().map_or(0, |s| s.x_copy() & 1);
        let mut names = vec![];
        if st.m.sectors() >= 64 {
            for e in st.m.sector(32 * copy + 1).chunks_exact(64) {
                let name: Vec<u8> = e[..40].iter().copied().take_while(|b| *b != 0).collect();
                names.extend(String::from_utf8(name).ok().filter(|n| !n.is_empty() && n.bytes().all(|b| b.is_ascii_graphic() && b != b'#')));
            }
        }
        match self.r.below(25) {
            0 => self.r.pick(BAD_NAMES).into(),
            1 => MARKS.into(),
            2..=20 if !names.is_empty() => names.swap_remove(self.r.below(names.len() as u64) as usize),
            _ => self.r.pick(NAMES).into(),
        }
    }

    fn sizes(&self) -> (u64, u64) {
        self.pair.st().store.as_ref().map_or((1, 1), |s| (s.chunks().clamp(1, 2048).into(), s.chunk_sectors().clamp(1, 512).into()))
    }

    fn between(&mut self) -> Done {
        match self.r.below(13) {
            0..=3 => self.set(),
            4..=6 => self.read(),
            7 | 8 => self.read_below(),
            9 => self.by_hand(),
            10 => self.damage(),
            11 => self.older(),
            _ => self.twin(),
        }
    }

    fn set(&mut self) -> Done {
        let stop = self.r.one_in(4).then(|| self.r.below(16));
        if let Some(n) = stop {
            self.say(format!("setleft {n}"))?;
        }
        for _ in 0..1 + self.r.below(3) {
            let (p, f) = (self.point(), self.file());
            self.say(format!("set_point {p} {f}"))?;
        }
        if stop.is_some() {
            self.say("setleft max".into())?;
        }
        Ok(())
    }

    /// A store value from before another call.
    fn older(&mut self) -> Done {
        self.say("save old".into())?;
        match self.r.below(4) {
            0 => {
                let f = self.file();
                self.say(format!("delete {f}"))?;
            }
            1 => drop(self.say(format!("create {MARKS} -"))?),
            2 => drop(self.say("create z -".into())?),
            _ => self.set()?,
        }
        self.say("load old store".into())?;
        if self.r.one_in(2) { self.set() } else { self.read() }
    }

    /// A reading, with handles forged, sectors unreadable and short buffers on the way.
    fn read(&mut self) -> Done {
        let p = self.point();
        self.say(format!("read_point {p}"))?;
        for _ in 0..1 + self.r.below(9) {
            if self.r.one_in(6) {
                self.forge()?;
            }
            if self.say("upto_next".into())? == "ok end" && self.r.one_in(2) {
                break;
            }
        }
        self.say("unreadable none".into())?;
        self.say("buffers 80 3200 500".into())?;
        Ok(())
    }

    fn forge(&mut self) -> Done {
        let (chunks, size) = self.sizes();
        let f = self.r.pick(&[
            "limit", "limit", "limit", "store", "gen", "slot", "id", "chunks", "chunk", "end", "noend", "position", "index", "unreadable", "buffers",
        ]);
        let v = match f {
            "unreadable" => {
                let n = self.r.below(self.pair.st().m.sectors() + 1);
                return self.say(format!("unreadable {n}")).map(drop);
            }
            "buffers" => {
                let n = self.r.pick(&[0, 485, 486, 487]);
                return self.say(format!("buffers 80 3200 {n}")).map(drop);
            }
            "limit" => {
                let a = self.r.below(4 * size + 2);
                self.r.pick(&[a, a, a, 0, u32::MAX.into()])
            }
            "slot" => self.r.edge(64),
            "chunks" => {
                let (a, b) = (self.r.edge(4), self.r.edge(2048));
                self.r.pick(&[a, a, b])
            }
            "chunk" => self.r.edge(chunks),
            "end" | "index" => self.r.edge(size),
            "position" => {
                let a = self.r.edge(4);
                self.r.pick(&[a, a, 2048, u32::MAX.into()])
            }
            _ => self.r.below(4),
        };
        self.say(format!("set upto {f} {v}")).map(drop)
    }

    /// A reader of any file up to any number, read to its end beside the plain reader.
    fn read_below(&mut self) -> Done {
        let f = self.file();
        let read = self.say(format!("reader {f}"))?;
        let (_, size) = self.sizes();
        let (few, many) = (self.r.below(4 * size + 2), self.r.pick(&[0, 1, u32::MAX.into()]));
        let limit = self.r.pick(&[few, few, few, many]);
        if !read.starts_with("ok") {
            return Ok(());
        }
        self.say(format!("upto {limit}"))?;
        if self.r.one_in(4) {
            let n = self.r.below(self.pair.st().m.sectors() + 1);
            self.say(format!("unreadable {n}"))?;
        }
        let (st, upto) = (self.pair.st(), self.pair.upto.unwrap());
        let (store, lent) = (st.store.unwrap(), self.pair.play.session.lent.out.len());
        if lent >= 486 && !bad_store(&store, st.m.sectors()) && !bad_reader(&upto.reader, &store) {
            let want = cut(&store, &mut st.m.clone(), upto.reader, upto.limit);
            self.held(want, upto.limit)?;
        }
        self.say("unreadable none".into())?;
        Ok(())
    }

    fn held(&mut self, want: (Vec<Item>, Option<u32>), limit: u32) -> Done {
        let (mut items, mut blank) = (vec![], 0);
        let refusal = loop {
            let answer = self.say("upto_next".into())?;
            match self.pair.item.take() {
                None => break answer.strip_prefix("no ").and_then(|n| n.parse().ok()),
                Some(Item::End) => break None,
                Some(item) => items.push(item),
            }
            blank = self.pair.blank;
        };
        self.cuts.read += 1;
        let cut = matches!(items.last(), Some(Item::Hole(_, to)) if *to == limit);
        self.cuts.holes += u64::from(cut);
        self.cuts.blank += u64::from(cut && blank > 0);
        self.cuts.refused += u64::from(refusal.is_some());
        if (&items, refusal) == (&want.0, want.1) { Ok(()) } else { Err(format!("up to {limit}: {items:?} {refusal:?}, the plain reader's {want:?}")) }
    }

    /// MARKS written by hand: a line, or nearly one.
    fn by_hand(&mut self) -> Done {
        let (open, roll) = (self.r.pick(&["create", "open_append"]), self.r.pick(&["-", "-", "\"\""]));
        self.say(format!("{open} {MARKS} {roll}"))?;
        for _ in 0..1 + self.r.below(3) {
            let (p, id, n) = (self.r.pick(&POINTS), self.r.below(6), self.r.below(12));
            let mut bytes = line(p.as_bytes(), id as u32, n as u32);
            let at = self.r.below(bytes.len() as u64) as usize;
            let byte = self.r.pick(b"0123456789\t\n\r -a");
            match self.r.below(8) {
                0 => bytes[at] = byte,
                1 => bytes.insert(at, byte),
                2 => drop(bytes.remove(at)),
                3 => bytes = line(p.as_bytes(), u32::MAX - id as u32 / 4, u32::MAX),
                4 => bytes = format!("{p}\t{id}\t429496729{}\n", 5 + n % 3).into_bytes(),
                _ => {}
            }
            self.say(format!("append {}", hex(&bytes)))?;
            self.say("sync".into())?;
        }
        Ok(())
    }

    /// Data sectors that hold a record with a tab, as lines do.
    fn line_sectors(&self) -> Vec<u64> {
        let m = &self.pair.st().m;
        (64..m.sectors()).filter(|n| m.sector(*n).starts_with(b"CSRD") && m.sector(*n)[22..62].contains(&b'\t')).collect()
    }

    /// Bytes of a line's record, or all of its sector; sealed anew or lost.
    fn damage(&mut self) -> Done {
        let at = self.line_sectors();
        if at.is_empty() {
            return Ok(());
        }
        let (sector, from) = (self.r.pick(&at), self.r.pick(&at));
        let (offset, byte) = (22 + self.r.below(20), self.r.pick(b"0123456789\t\n pq"));
        let length = self.r.pick(&[0u16, 5, 6, 7, 8, 486, 487]).to_le_bytes();
        match self.r.below(6) {
            0 | 1 => self.say(format!("poke {sector} {offset} {byte:02x}"))?,
            2 => self.say(format!("poke {sector} 20 {}", hex(&length)))?,
            3 => self.say(format!("poke {sector} 0 {}", hex(&[0; 512])))?,
            4 => self.say(format!("copysector {from} {sector}"))?,
            _ => self.say(format!("poke {sector} {} {byte:02x}", self.r.0 % 508))?,
        };
        if self.r.one_in(2) {
            self.say(format!("seal {sector}"))?;
        }
        Ok(())
    }

    /// A second entry with the id of another, in the copy of the store in hand, which is mounted anew.
    fn twin(&mut self) -> Done {
        let st = self.pair.st();
        let copy = st.store.as_ref().map_or(0, |s| s.x_copy() & 1);
        if st.m.sectors() < 64 {
            return Ok(());
        }
        let entries: Vec<_> = st.m.sector(32 * copy + 1).chunks_exact(64).map(|e| (e[0] != 0, e[40..44].to_vec())).collect();
        let (a, b) = (self.r.below(4) as usize, self.r.below(4) as usize);
        if entries[a].0 && entries[b].0 && a != b {
            self.say(format!("poke {} {} {}", 32 * copy + 1, 64 * a + 40, hex(&entries[b].1)))?;
            self.say(format!("bodycrc {copy} 0"))?;
            self.say("mount".into())?;
        }
        Ok(())
    }
}

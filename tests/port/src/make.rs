//! Random scripts. A round is one volume with a history that the Rust makes,
//! and then episodes: the history's state with something changed, and calls.
use crate::histories;
use driver::script::Session;

/// What an episode changes.
#[derive(Clone, Copy, PartialEq, Eq)]
pub enum Kind {
    /// Handles, an unreadable sector and lengths of buffers only.
    Whole,
    /// One field of the volume as well.
    Damaged,
    /// Whole sectors of random bytes.
    Random,
    /// Calls that write: a history.
    History,
    /// The same, each call stopped at each of its writes.
    Stopped,
    /// The same, single calls on what is damaged or forged.
    Forged,
}

pub struct Rng(pub u64);
impl Rng {
    pub fn next(&mut self) -> u64 {
        self.0 = self.0.wrapping_add(0x9e3779b97f4a7c15);
        let mut z = self.0;
        z = (z ^ (z >> 30)).wrapping_mul(0xbf58476d1ce4e5b9);
        z = (z ^ (z >> 27)).wrapping_mul(0x94d049bb133111eb);
        z ^ (z >> 31)
    }
    pub fn below(&mut self, n: u64) -> u64 {
        self.next() % n
    }
    pub fn one_in(&mut self, n: u64) -> bool {
        self.below(n) == 0
    }
    pub fn pick<T: Copy>(&mut self, of: &[T]) -> T {
        of[self.below(of.len() as u64) as usize]
    }
    /// 0, 1, the top, one beside it, or any below it.
    pub fn edge(&mut self, top: u64) -> u64 {
        let any = self.below(top + 1);
        self.pick(&[0, 1, top.saturating_sub(1), top, top + 1, any, any])
    }
}

const LONG: &str = "traces/abcdefghijklmnopqrstuvwxyz0123456"; // 40 bytes
pub const NAMES: &[&str] = &["a", "b", "t/a", "t/b", "t/u/c", "w/1", "x.y_z-0", LONG];
/// Dot names, which 02, S-5 retires: files have them from before it.
pub const DOTS: &[&str] = &[".a", "t/.b", ".t/c", "..", "w/.n/1", "t/u/.d"];
pub const DIRS: &[&str] = &["\"\"", "\"\"", "t/", "t/u/", "w/", "traces/", "zz/", ".t/"];
/// Empty, no or empty segments, 41 bytes, other characters, no text.
pub const BAD_NAMES: &[&str] = &["\"\"", "/", "/.a", "a//.b", "/a", "a/", "a//b", "a+b", "traces/abcdefghijklmnopqrstuvwxyz01234567", "\\6100", "\\612062", "\\ff", "\\c3a4", "a:"];
pub const BAD_DIRS: &[&str] = &["/", "t", "t//", "/t/", "traces/abcdefghijklmnopqrstuvwxyz0123456/", "t+/", "\\74ff2f", "\\2f00"];
pub const SIZES: &[u64] = &[0, 1, 5, 40, 41, 485, 486, 487, 1500, 5000];

pub struct Maker {
    pub r: Rng,
    pub s: Session,
    lines: Vec<String>,
    pub made: Vec<&'static str>,
}

/// The lines of a round; the same for the same seed.
pub fn round(kind: Kind, seed: u64) -> Vec<String> {
    let mut m = Maker { r: Rng(seed), s: Session::new(true), lines: vec![], made: vec![] };
    match kind {
        Kind::History => histories::history(&mut m),
        Kind::Stopped => histories::stopped(&mut m),
        Kind::Forged => histories::forged(&mut m),
        _ => m.reading(kind),
    }
    m.lines
}

/// One volume, and each field of it changed alone to the values at its bounds, checksums listed anew.
pub fn fields() -> Vec<String> {
    let mut m = Maker { r: Rng(0), s: Session::new(true), lines: vec![], made: vec![] };
    for line in ["volume 84", "format 2 1", "create a -", "appendn 1944 1", "create t/b -", "appendn 5 2", "sync", "mount", "save base"] {
        m.say(line.into());
    }
    // 10 chunks of 2 sectors, 1 table sector, copy B current
    let headers: [(u64, u64, usize); 42] = [
        (0, 0, 1), (12, 0, 1), (13, 1, 1), (15, 1, 1), (16, 0, 2), (16, 2, 2), (17, 1, 1), (18, 7, 2), (18, 9, 2), (20, 0, 2),
        (20, 2, 2), (21, 1, 1), (22, 1, 1), (23, 1, 1), (24, 0, 8), (24, 1, 8), (32, 0, 8), (32, 4, 8), (32, 5, 8), (32, u64::MAX, 8),
        (40, 0, 4), (40, 1, 4), (40, 0xffffffff, 4), (44, 0, 4), (44, 9, 4), (44, 10, 4), (48, 0, 4), (48, 9, 4), (48, 11, 4), (48, 129, 4),
        (48, 2049, 4), (52, 0, 4), (52, 1, 4), (52, 3, 4), (52, 513, 4), (56, 1, 1), (63, 1, 1), (64, 1, 4), (96, 1, 4), (100, 1, 1),
        (507, 1, 1), (300, 0, 1),
    ];
    for (copy, (at, v, n)) in [0, 1].into_iter().flat_map(|c| headers.map(|h| (c, h))) {
        m.poke(32 * copy, at, &v.to_le_bytes()[..n]);
        m.after(&[&format!("seal {}", 32 * copy), "mount", "list \"\"", "reader a"]);
    }
    // slot 0 is a, slot 1 t/b, slot 2 free
    let entries: [(u64, &[u8]); 26] = [
        (0, b"\0"), (0, b"b"), (0, b"/"), (0, b"+"), (0, b"\xc3\xa4"), (1, b"/"), (1, b"/b"), (2, b"b"), (39, b"b"), (40, b"\0"),
        (40, b"\x07"), (43, b"\x01"), (44, b"\x01"), (63, b"\x01"), (0, b"t/b"), (64, b"a\0\0"), (64, b"u"), (66, b"/"), (66, b"\0"), (104, b"\x01"),
        (128, b"c"), (168, b"\x01"), (128, b"a\0"), (191, b"\x01"), (511, b"\x01"), (448, b"z"),
    ];
    for (at, bytes) in entries {
        m.poke(33, at, bytes);
        m.after(&["bodycrc 1 0", "mount", "list \"\"", "list t/", "find a", "find t/b", "reader a"]);
    }
    // a has chunks 0 and 1, t/b chunk 2; 10 is past the last
    let links: [(u64, u32); 25] = [
        (0, 0), (0, 1), (0, 2), (0, 3), (0, 64), (0, 65), (0, 127), (0, 0x80), (0, 0x81), (0, 0x8000_0001),
        (0, 0x8000_0081), (0, 0x8000_0101), (0, 0x8000_0000), (0, 0x0001_0000), (0, 0x0001_0001), (1, 0x0001_0002), (1, 0x0002_0001), (1, 0x8001_0081), (1, 0x7fff_0001), (1, 0),
        (3, 1), (3, 0x0001_0001), (3, 0x0002_0001), (10, 1), (127, 0x8000_0000),
    ];
    for (chunk, link) in links {
        m.poke(41, 4 * chunk, &link.to_le_bytes());
        m.after(&["bodycrc 1 8", "mount", "list \"\"", "reader a", "next", "next", "next", "seek 3", "next", "reader t/b", "next"]);
    }
    // the records 0 and 1 of a, and its last, 3
    let records: [(u64, &[u8]); 17] = [
        (0, b"X"), (3, b"X"), (4, b"\0"), (11, b"\0"), (12, b"\x02"), (15, b"\x01"), (16, b"\x02"), (19, b"\x01"), (20, b"\0\0"), (20, b"\x01\0"),
        (20, b"\xe6\x01"), (20, b"\xe7\x01"), (20, b"\xff\xff"), (22, b"X"), (507, b"X"), (508, b"X"), (21, b"\0"),
    ];
    for (sector, (at, bytes)) in [64, 65, 67].into_iter().flat_map(|s| records.map(|r| (s, r))) {
        m.poke(sector, at, bytes);
        let sealed = format!("seal {sector}");
        m.after(&[if at < 508 { &sealed } else { "mount" }, "reader a", "next", "next", "next", "next", "next"]);
    }
    // the checksums not listed anew
    for (sector, k) in [(32, 0), (33, 0), (40, 7), (41, 8), (64, 0)] {
        m.poke(sector, 200, &[k + 1]);
        m.after(&["mount", "list \"\"", "find a", "find z", "reader a", "next"]);
    }
    m.lines
}

impl Maker {
    /// A volume with a history, and episodes of calls that read.
    fn reading(&mut self, kind: Kind) {
        self.volume(kind);
        self.history();
        self.say("save base".into());
        for _ in 0..6 {
            self.episode(kind);
            self.say("load base".into());
        }
    }
    fn after(&mut self, lines: &[&str]) {
        lines.iter().for_each(|l| self.say((*l).into()));
        self.say("load base".into());
    }
    /// The call at each of its writes; the history goes on after the whole call.
    pub fn say_stops(&mut self, call: String, after: &str) {
        self.s.line(&call);
        self.lines.push(format!("stops {call} ; {after}"));
    }
    pub fn say(&mut self, line: String) {
        self.s.line(&line);
        self.lines.push(line);
    }
    pub fn sectors(&self) -> u64 {
        self.s.st.m.sectors()
    }
    /// Chunks and sectors of each, as the store in hand has them.
    pub fn sizes(&self) -> (u64, u64) {
        self.s.st.store.as_ref().map_or((1, 1), |s| (s.chunks().clamp(1, 2048).into(), s.chunk_sectors().clamp(1, 512).into()))
    }
    /// One in eight is a dot name.
    pub fn any_name(&mut self) -> &'static str {
        if self.r.one_in(8) { self.r.pick(DOTS) } else { self.r.pick(NAMES) }
    }
    /// Mostly one that was created.
    pub fn name(&mut self) -> &'static str {
        if self.r.one_in(25) {
            self.r.pick(BAD_NAMES)
        } else if self.made.is_empty() || self.r.one_in(5) {
            self.any_name()
        } else {
            self.r.pick(&self.made)
        }
    }
    /// A create or open_append; of a dot name by the rule from before S-5, half the time.
    pub fn opening(&mut self, call: &str, name: &str, dir: &str) -> String {
        let earlier = if DOTS.contains(&name) && self.r.one_in(2) { "earlier " } else { "" };
        format!("{earlier}{call} {name} {dir}")
    }
    pub fn dir(&mut self) -> &'static str {
        if self.r.one_in(12) { self.r.pick(BAD_DIRS) } else { self.r.pick(DIRS) }
    }

    /// Any geometry of up to 600 sectors, in a third of the rounds; small chunks often.
    pub fn any_geometry(&mut self) -> Option<(u64, u64)> {
        let r = &mut self.r;
        let top = 1 << r.below(10);
        r.one_in(3).then(|| (64 + r.below(537), 1 + r.below(top)))
    }

    fn volume(&mut self, kind: Kind) {
        let any = self.any_geometry();
        let r = &mut self.r;
        let (sectors, size) = any.unwrap_or_else(|| match r.below(12) {
            0 => (64 + r.pick(&[127, 128, 129, 256, 257, 300]), 1),
            1 => (64 + 2 * r.pick(&[127, 128, 129]), 2),
            2 if r.one_in(4) => (64 + r.pick(&[2047, 2048, 2049]), 1),
            3 => (64 + r.pick(&[0, 1, 2, 3]), 1 + r.below(3)),
            4 => (64 + 512 + r.below(600), r.pick(&[511, 512, 300])),
            _ => (64 + r.pick(&[8, 16, 40, 64, 90]), 1 + r.below(6)),
        });
        let fill = if kind == Kind::Random { "rand" } else { r.pick(&["zero", "zero", "ff", "rand"]) };
        let extra = r.pick(&[0, 0, 0, 1, 511]);
        let lines = [
            format!("volume {sectors} {fill} {} {extra}", r.below(1000)),
            format!("entropy {}", r.below(4)),
            format!("token {}", r.pick(&[0, 7, u32::MAX])),
            format!("format {size} {}", r.below(100)),
        ];
        lines.into_iter().for_each(|l| self.say(l));
    }

    /// Writes by the Rust: files, records, partial chunks, deletes, power stops.
    fn history(&mut self) {
        let (chunks, size) = self.sizes();
        let many = self.r.one_in(30) && chunks > 66;
        for k in 0..if many { 66 } else { 0 } {
            self.say(format!("create m/{k} -"));
        }
        for _ in 0..self.r.below(6) {
            self.file(size);
        }
        for _ in 0..self.r.below(6) {
            let stopped = self.r.one_in(6);
            if stopped {
                let n = self.r.below(14);
                self.say(format!("setleft {n}"));
            }
            match self.r.below(4) {
                0 => {
                    let n = self.r.pick(NAMES);
                    self.say(format!("delete {n}"));
                }
                1 => self.say("sync".into()),
                _ => self.file(size),
            }
            if stopped {
                self.say("setleft max".into());
                self.say("mount".into());
            }
        }
        if self.r.one_in(2) {
            self.say("mount".into());
        }
    }

    /// A file made, or opened again, and records of it; some are cut off by a sync.
    fn file(&mut self, size: u64) {
        let name = self.any_name();
        if self.r.one_in(3) && !self.made.is_empty() {
            let name = self.r.pick(&self.made);
            let call = self.opening("open_append", name, "-");
            self.say(call);
        } else {
            let dir = self.r.pick(&["-", "-", "\"\"", "t/"]);
            let call = self.opening("create", name, dir);
            self.say(call);
            self.made.push(name);
        }
        for _ in 0..self.r.below(4) {
            let whole = 486 * self.r.below(3 * size.min(5) + 1);
            let (few, byte) = (self.r.pick(SIZES), self.r.below(256));
            let bytes = self.r.pick(&[few, whole]);
            self.say(format!("appendn {bytes} {byte}"));
            if self.r.one_in(2) {
                self.say("sync".into());
            }
        }
    }

    fn episode(&mut self, kind: Kind) {
        match kind {
            Kind::Whole => {}
            Kind::Damaged => self.damage(),
            _ => self.noise(),
        }
        if self.r.one_in(4) || kind != Kind::Whole && !self.r.one_in(4) {
            self.say("mount".into());
        }
        if self.r.one_in(3) {
            let n = self.sector();
            self.say(format!("unreadable {n}"));
        }
        if self.r.one_in(8) {
            self.other_volume();
        }
        if self.r.one_in(6) {
            self.forge_store();
        }
        let short = self.r.one_in(10);
        if short {
            let (c, w, o) = (self.r.pick(&[63, 64, 65]), self.r.pick(&[3071, 3072, 3073]), self.r.pick(&[485, 486, 487]));
            self.say(format!("buffers {c} {w} {o}"));
        }
        for _ in 0..4 + self.r.below(5) {
            self.call();
        }
        if short {
            self.say("buffers 80 3200 500".into());
        }
    }

    fn call(&mut self) {
        let (_, size) = self.sizes();
        match self.r.below(10) {
            0 => self.say("mount".into()),
            9 => self.say("free_count".into()),
            1 | 2 => {
                let n = self.name();
                self.say(format!("find {n}"));
            }
            3 | 4 => {
                let d = self.dir();
                self.say(format!("list {d}"));
            }
            _ => {
                let n = self.name();
                self.say(format!("reader {n}"));
                if self.s.st.reader.is_none() {
                    return;
                }
                for _ in 0..1 + self.r.below(7) {
                    self.step(size);
                }
            }
        }
    }

    /// A call of the reader in hand, now and then after something changed.
    fn step(&mut self, size: u64) {
        match self.r.below(24) {
            0 | 1 => self.forge_reader(),
            2 => {
                let n = self.sector();
                self.say(format!("unreadable {n}"));
            }
            3 => self.say("unreadable none".into()),
            4 => self.say("create n -".into()),
            5 => {
                let c = self.s.st.store.as_ref().map_or(0, |s| s.x_copy() & 1);
                if self.sectors() >= 64 {
                    self.damage_link(c, true);
                }
            }
            _ => {}
        }
        match self.r.below(8) {
            0 => {
                let n = if self.r.one_in(12) { self.r.next() % (1 << 32) } else { self.r.below(4 * size + 2) };
                self.say(format!("seek {n}"));
            }
            1 => self.say("record".into()),
            _ => self.say("next".into()),
        }
    }

    /// A sector of a copy, its body or the data, or none.
    pub fn sector(&mut self) -> u64 {
        let s = self.sectors();
        let held = self.s.st.store.as_ref().map_or(0, |s| s.x_copy() & 1);
        let base = 32 * (held ^ u64::from(self.r.one_in(4)));
        match self.r.below(6) {
            0 => base,
            1 => base + 1 + self.r.below(8),
            2 => base + 9 + self.r.below(3),
            3 => self.r.edge(s),
            _ => 64 + self.r.below((s.max(65) - 64).min(24)),
        }
    }

    /// The handles in hand beside a volume that they are not of.
    pub fn other_volume(&mut self) {
        self.say("save held".into());
        let (sectors, fill) = (self.r.pick(&[0, 1, 32, 33, 63, 64, 65, 100]), self.r.pick(&["zero", "ff"]));
        self.say(format!("volume {sectors} {fill}"));
        if self.r.one_in(3) {
            self.say("format 1 5".into());
            self.say("create a -".into());
        }
        self.say("mount".into());
        self.say("load held store appender reader".into());
    }

    pub fn forge_store(&mut self) {
        let (chunks, size) = self.sizes();
        let f = self.r.pick(&["copy", "id", "gen", "next", "cursor", "chunks", "size", "wid", "wtoken", "nowriter", "crc0", "crc7", "crc8", "crc23"]);
        let v = match f {
            "copy" => self.r.pick(&[0, 1, 2, 32, u64::MAX]),
            "cursor" | "chunks" => {
                let (a, b) = (self.r.edge(chunks), self.r.edge(2048));
                self.r.pick(&[a, a, b, 1 << 31])
            }
            "size" => {
                let (a, b) = (self.r.edge(size), self.r.edge(512));
                self.r.pick(&[a, a, b, 1 << 31])
            }
            _ => self.r.below(4),
        };
        self.say(format!("set store {f} {v}"));
    }

    fn forge_reader(&mut self) {
        let (chunks, size) = self.sizes();
        let f = self.r.pick(&["store", "gen", "slot", "id", "chunks", "chunk", "end", "noend", "position", "index"]);
        let v = match f {
            "slot" => self.r.edge(64),
            "chunks" => {
                let (a, b) = (self.r.edge(4), self.r.edge(2048));
                self.r.pick(&[a, a, b])
            }
            "chunk" => self.r.edge(chunks),
            "end" | "index" => self.r.edge(size),
            "position" => {
                let a = self.r.edge(self.s.st.reader.as_ref().map_or(1, |r| r.x_chunks().into()));
                self.r.pick(&[a, a, a, u32::MAX.into()])
            }
            _ => self.r.below(4),
        };
        self.say(format!("set reader {f} {v}"));
    }

    /// One field of a header, an entry, a link or a record, with or without the checksums that then hold.
    pub fn damage(&mut self) {
        if self.sectors() < 64 {
            return;
        }
        let copy = self.s.st.store.as_ref().map_or(0, |s| s.x_copy()) ^ u64::from(self.r.one_in(5));
        let sealed = !self.r.one_in(4);
        match self.r.below(8) {
            0 | 1 => self.damage_header(copy & 1, sealed),
            2 | 3 => self.damage_entry(copy & 1, sealed),
            4 | 5 => self.damage_link(copy & 1, sealed),
            _ => self.damage_record(sealed),
        }
    }

    pub fn poke(&mut self, sector: u64, at: u64, bytes: &[u8]) {
        self.say(format!("poke {sector} {at} {}", driver::hex(bytes)));
    }

    fn damage_header(&mut self, copy: u64, sealed: bool) {
        let (chunks, size) = self.sizes();
        let (at, v, n): (u64, u64, usize) = match self.r.below(12) {
            0 => (self.r.below(16), self.r.below(256), 1),
            1 => (16, self.r.below(3), 2),
            2 => (18, self.r.edge(8), 2),
            3 => (20, self.r.edge(chunks.div_ceil(128)), 2),
            4 => (self.r.pick(&[22, 23, 56, 63]), self.r.below(3), 1),
            5 => (24, self.r.below(3), 8),
            6 => (32, self.r.pick(&[0, 1, 2, 3, u64::MAX]), 8),
            7 => (40, self.r.pick(&[0, 1, u32::MAX.into()]), 4),
            8 => (44, self.r.edge(chunks), 4),
            9 => {
                let (a, b) = (self.r.edge(chunks), self.r.edge(2048));
                (48, self.r.pick(&[a, a, b]), 4)
            }
            10 => {
                let (a, b) = (self.r.edge(size), self.r.edge(512));
                (52, self.r.pick(&[a, a, b]), 4)
            }
            _ => (64 + self.r.below(444), self.r.below(256), 1),
        };
        self.poke(32 * copy, at, &v.to_le_bytes()[..n]);
        if sealed {
            self.say(format!("seal {}", 32 * copy));
        }
    }

    fn body(&mut self, copy: u64, k: u64, sealed: bool) {
        if sealed {
            self.say(format!("bodycrc {copy} {k}"));
        }
    }

    fn damage_entry(&mut self, copy: u64, sealed: bool) {
        let k = if self.r.one_in(3) { self.r.below(8) } else { 0 };
        let (slot, byte) = (64 * self.r.below(if k == 0 { 4 } else { 8 }), self.r.next() as u8);
        let (letter, at) = (self.r.pick(b"azAZ09._-/+\0"), self.r.below(64));
        let name = self.r.pick(&[&b"a\0"[..], b"t/b\0", b"/\0", b"\xc3\xa4\0"]);
        let sector = 32 * copy + 1 + k;
        match self.r.below(6) {
            0 => self.poke(sector, slot + at % 40, &[letter]),
            1 => self.poke(sector, slot + 40, &u32::from(byte % 4).to_le_bytes()),
            2 => self.poke(sector, slot + 44 + at % 20, &[byte]),
            3 => self.poke(sector, slot, name),
            4 => self.poke(sector, slot, &[0; 64]),
            _ => self.poke(sector, slot + at, &[byte]),
        }
        self.body(copy, k, sealed);
    }

    fn damage_link(&mut self, copy: u64, sealed: bool) {
        let (chunks, size) = self.sizes();
        let t = self.r.below(chunks.div_ceil(128));
        for _ in 0..1 + self.r.below(3) {
            let chunk = if self.r.one_in(6) { 127 } else { self.r.below(128.min(chunks + 1)) };
            let (slot, records) = (self.r.pick(&[0, 1, 2, 3, 63, 64]), self.r.edge(size.min(511)));
            let (position, partial) = (self.r.pick(&[0, 0, 1, 1, 2, 3, 2047]), self.r.below(2));
            let (owner, place) = match self.r.below(8) {
                0 => (0, 0),
                1 => (self.r.next() as u16, self.r.next() as u16),
                2 => (slot as u16 + 1 | (records as u16) << 7, position as u16),
                3 => (0, position as u16 | 0x8000),
                _ => (slot as u16 + 1 | ((records * partial) as u16) << 7, position as u16 | (partial << 15) as u16),
            };
            let bytes = u32::from(owner) | u32::from(place) << 16;
            self.poke(32 * copy + 9 + t, 4 * chunk, &bytes.to_le_bytes());
        }
        self.body(copy, 8 + t, sealed);
    }

    fn damage_record(&mut self, sealed: bool) {
        let data = self.sectors() - 64;
        if data == 0 {
            return;
        }
        for _ in 0..1 + self.r.below(3) {
            let sector = 64 + self.r.below(data.min(24));
            let (byte, at) = (self.r.below(5) as u8, self.r.below(512));
            let length = self.r.pick(&[0u16, 1, 486, 487, 65535]).to_le_bytes();
            match self.r.below(8) {
                0 => self.poke(sector, at % 4, &[byte]),
                1 => self.poke(sector, 4 + at % 8, &[byte]),
                2 => self.poke(sector, 12, &[byte]),
                3 => self.poke(sector, 16, &[byte]),
                4 => self.poke(sector, 20, &length),
                5 => self.poke(sector, 22 + at % 486, &[byte]),
                6 => self.say(format!("copysector {} {sector}", 64 + at % data)),
                _ => self.poke(sector, at, &[byte]),
            }
            if sealed {
                self.say(format!("seal {sector}"));
            }
        }
    }

    /// Whole sectors of random bytes (those of the data) in a header, a directory or table sector.
    pub fn noise(&mut self) {
        let data = self.sectors().max(64) - 64;
        if data == 0 {
            return;
        }
        for _ in 0..1 + self.r.below(3) {
            let copy = self.r.below(2);
            let from = 64 + self.r.below(data);
            let k = if self.r.one_in(2) { self.r.below(8) } else { 8 };
            match self.r.below(6) {
                0 => {
                    self.say(format!("copysector {from} {}", 32 * copy));
                    self.poke(32 * copy, 0, b"CYCLING-STORE\0\0\0");
                    if self.r.one_in(2) {
                        self.say(format!("seal {}", 32 * copy));
                    }
                }
                1 => self.say(format!("copysector {from} {}", 32 * copy)),
                2 => self.say(format!("copysector {} {}", 32 * (1 - copy), 32 * copy)),
                _ => {
                    self.say(format!("copysector {from} {}", 32 * copy + 1 + k));
                    self.say(format!("bodycrc {copy} {k}"));
                }
            }
        }
    }
}

//! The script language of `oracle` over the unchanged Rust store. See README.md.
use crate::*;
use std::borrow::Cow;
use std::collections::HashMap;
use std::panic::{AssertUnwindSafe, catch_unwind};

/// The port's map of free chunks (02, S-3): 1 where it is fit, then its 32 words. All 0 is the unfit one.
pub type Map = [u64; 33];

pub struct State {
    pub m: Medium,
    pub store: Option<Store>,
    /// What the store value has in the port and not in the Rust: kept, saved and loaded with it.
    pub map: Map,
    pub app: Option<Appender>,
    pub reader: Option<Reader>,
    token: u32,
}

/// What a caller lends to list and next. The Rust has an array, of 32 bits, or a
/// visitor there: its answers are laid out here as 01 has them, and 02, S-9 the counts.
#[derive(Clone, PartialEq, Eq)]
pub struct Lent {
    pub counts: Vec<u16>,
    pub rows: Vec<u8>,
    pub out: Vec<u8>,
}

impl Lent {
    /// Of these lengths, and not of zeros.
    pub fn new(counts: usize, rows: usize, out: usize) -> Self {
        let byte = |i: usize| (i * 167 + 13) as u8 | 1;
        Lent {
            counts: (0..counts as u16).map(|i| (i + 1).wrapping_mul(0x9e37)).collect(),
            rows: (0..rows).map(byte).collect(),
            out: (0..out).map(byte).collect(),
        }
    }
    /// The same lengths, as lent before a call.
    pub fn anew(&self) -> Self {
        Lent::new(self.counts.len(), self.rows.len(), self.out.len())
    }
}

impl State {
    fn copy(&self) -> State {
        State {
            m: self.m.clone(),
            store: self.store,
            map: self.map,
            app: self.app.as_ref().map(Appender::x_clone),
            reader: self.reader,
            token: Store::x_token(),
        }
    }
}

/// The bytes of a name or directory: `""` is empty, `\HEX` any bytes.
pub fn bytes_of(text: &str) -> Cow<'_, [u8]> {
    match text.strip_prefix('\\').and_then(unhex) {
        Some(bytes) => Cow::Owned(bytes),
        None if text == "\"\"" => Cow::Borrowed(b""),
        None => Cow::Borrowed(text.as_bytes()),
    }
}

/// What is no text is refused as the Rust refuses it in an entry.
fn text_of(text: &str) -> Result<String, Error> {
    String::from_utf8(bytes_of(text).into_owned()).map_err(|_| Error::Name)
}

fn name_of(text: &str) -> Result<Name, Error> {
    Name::new(&text_of(text)?)
}

fn dir_of(text: &str) -> Result<Dir, Error> {
    Dir::new(&text_of(text)?)
}

pub fn num(text: &str) -> Option<u64> {
    if text == "none" || text == "max" {
        return Some(u64::MAX);
    }
    match text.strip_prefix("0x") {
        Some(h) => u64::from_str_radix(h, 16).ok(),
        None => text.parse().ok(),
    }
}

pub fn show_store(s: &Store) -> String {
    let w = s.x_writer().map_or("-".to_string(), |(t, i)| format!("{t}/{i}"));
    format!(
        "store copy={} id={:016x} gen={} next={} cursor={} chunks={} size={} writer={} crcs={:08x}",
        s.x_copy(), s.store_id(), s.generation(), s.x_next_id(), s.x_cursor(), s.chunks(), s.chunk_sectors(), w,
        crc32(&s.x_crcs().iter().flat_map(|c| c.to_le_bytes()).collect::<Vec<_>>())
    )
}

fn show_app(a: &Appender) -> String {
    let (k, n) = a.x_tail();
    let tail = match k {
        0 => format!("at{n}"),
        1 => format!("reopened{n}"),
        _ => "closed".into(),
    };
    let roll = a.x_rollover().map_or("-".to_string(), |d| format!("\"{}\"", d.as_str()));
    format!(
        "appender token={} slot={} id={} chunk={} position={} tail={} fill={} buffer={:08x} rollover={}",
        a.x_token(), a.x_slot(), a.x_id(), a.x_chunk(), a.x_position(), tail, a.x_fill(), crc32(&a.x_buffer()), roll
    )
}

pub fn show_reader(r: &Reader) -> String {
    format!(
        "reader store={:016x} gen={} slot={} id={} chunks={} chunk={} end={} position={} index={}",
        r.x_store(), r.x_generation(), r.x_slot(), r.x_id(), r.x_chunks(), r.x_chunk(),
        r.x_end().map_or("-".to_string(), |e| e.to_string()), r.x_position(), r.x_index()
    )
}

fn refuse(e: Error) -> String {
    format!("no {}", number(e))
}

/// The rows of a list, a line each.
pub fn rows_text(rows: &[u8]) -> String {
    let mut text = String::new();
    for r in rows.chunks_exact(48) {
        let name: Vec<u8> = r[..40].iter().copied().take_while(|b| *b != 0).collect();
        let n = |at: usize| u32::from_le_bytes(r[at..at + 4].try_into().unwrap());
        text += &format!("\n{} {} {}", String::from_utf8_lossy(&name), n(40), n(44));
    }
    text
}

/// The numbers of a hole, if an answer is one.
pub fn hole(text: &str) -> Option<(u32, u32)> {
    let (from, to) = text.strip_prefix("ok hole ")?.split_once(' ')?;
    Some((from.parse().ok()?, to.parse().ok()?))
}

pub fn next_text(next: Next, out: &[u8]) -> String {
    match next {
        Next::Record(n) if n > 40 => format!("ok payload {n} crc {:08x}", crc32(&out[..n])),
        Next::Record(n) => format!("ok payload {n} {}", hex(&out[..n])),
        Next::Hole { from, to } => format!("ok hole {from} {to}"),
        Next::End => "ok end".into(),
    }
}

/// Whether a create or open_append, by its words, is refused with 16 (02, S-5): asked before the tests of number 1 (false) and
/// after them (true).
pub type Retires = fn(&[&str], bool) -> bool;

pub fn retires(words: &[&str], after: bool) -> bool {
    after && words.get(1).is_some_and(|name| dotted(&bytes_of(name)))
}

/// One call; the answer's text. `rule3` applies what is the port's own: 01's handle tests and numbers, and S-7's format; `retires`
/// S-5's names.
fn call(st: &mut State, lent: &mut Lent, words: &[&str], rule3: bool, retires: Option<Retires>) -> String {
    let sector: &mut Sector = &mut [0xa5; 512];
    let State { m, store, app, reader, .. } = st;
    let need_store = !matches!(words[0], "format" | "mount");
    if need_store && store.is_none() {
        return "-- no store".into();
    }
    let bad = rule3 && need_store && bad_store(store.as_ref().unwrap(), m.sectors());
    macro_rules! name {
        ($i:expr) => {
            match name_of(words.get($i).copied().unwrap_or("\"\"")) {
                Ok(n) => n,
                Err(e) => return refuse(e),
            }
        };
    }
    macro_rules! dir {
        ($i:expr) => {
            match words.get($i).copied().unwrap_or("-") {
                "-" => None,
                t => match dir_of(t) {
                    Ok(d) => Some(d),
                    Err(e) => return refuse(e),
                },
            }
        };
    }
    match words[0] {
        "format" => {
            let (Some(size), Some(seed)) = (words.get(1).and_then(|w| num(w)), words.get(2).and_then(|w| num(w))) else {
                return "-- form".into();
            };
            if !(1..=512).contains(&size) {
                return "no 2".into(); // the port's test; the Rust has no such argument
            }
            match format(m, seed, size as u32, sector, rule3 && equal_generations(m)) {
                Ok(s) => {
                    *store = Some(s);
                    format!("ok {}", s.chunks())
                }
                Err(e) => refuse(e),
            }
        }
        "mount" => match mount(m, sector) {
            Ok(s) => {
                *store = Some(s);
                format!("ok {}", s.chunks())
            }
            Err(e) => refuse(e),
        },
        "create" | "open_append" => {
            if bad {
                return "no 3".into();
            }
            if retires.is_some_and(|r| r(words, false)) {
                return "no 16".into();
            }
            let (n, d) = (name!(1), dir!(2));
            if retires.is_some_and(|r| r(words, true)) {
                return "no 16".into(); // the port's test; the Rust takes these names
            }
            let s = store.as_mut().unwrap();
            let r = if words[0] == "create" { s.create(m, &n, d, sector) } else { s.open_append(m, &n, d, sector) };
            match r {
                Ok(a) => {
                    let t = format!("ok {}", a.x_id());
                    *app = Some(a);
                    t
                }
                Err(e) => refuse(e),
            }
        }
        "append" | "appendn" | "sync" => {
            let Some(a) = app else { return "-- no appender".into() };
            let s = store.as_mut().unwrap();
            if bad || rule3 && bad_appender(a, s) {
                return "no 3".into();
            }
            let r = match words[0] {
                "sync" => a.sync(s, m, sector),
                "append" => match unhex(words.get(1).filter(|w| **w != "\"\"").copied().unwrap_or("")) {
                    Some(b) => append(a, s, m, &b, sector, rule3),
                    None => return "-- form".into(),
                },
                _ => {
                    let n = words.get(1).and_then(|w| num(w)).unwrap_or(0);
                    let b = words.get(2).and_then(|w| num(w)).unwrap_or(0x61);
                    append(a, s, m, &vec![b as u8; n as usize], sector, rule3)
                }
            };
            match r {
                Ok(()) => format!("ok {}", a.room()),
                Err(e) => refuse(e),
            }
        }
        "delete" => {
            if bad {
                return "no 3".into();
            }
            let n = name!(1);
            match store.as_mut().unwrap().delete(m, &n, sector) {
                Ok(()) => "ok 0".into(),
                Err(e) => refuse(e),
            }
        }
        "delete_oldest" => {
            if bad {
                return "no 3".into();
            }
            let d = match dir_of(words.get(1).copied().unwrap_or("\"\"")) {
                Ok(d) => d,
                Err(e) => return refuse(e),
            };
            match store.as_mut().unwrap().delete_oldest(m, &d, sector) {
                Ok(Some(n)) => format!("ok 1 {}", n.as_str()),
                Ok(None) => "ok 0".into(),
                Err(e) => refuse(e),
            }
        }
        "list" => {
            if lent.rows.len() < 3072 || lent.counts.len() < 64 {
                return "no 2".into(); // the port's test; the Rust has no such argument
            }
            if bad {
                return "no 3".into();
            }
            let d = match dir_of(words.get(1).copied().unwrap_or("\"\"")) {
                Ok(d) => d,
                Err(e) => return refuse(e),
            };
            let s = store.as_ref().unwrap();
            let mut counts = [0u32; 64];
            let _ = s.x_counts(m, &mut counts, sector);
            for (narrow, wide) in lent.counts.iter_mut().zip(counts) {
                *narrow = wide.try_into().expect("a count that 16 bits do not hold");
            }
            m.begin();
            let mut k = 0;
            let r = s.list(m, &d, sector, |e| {
                let row = &mut lent.rows[48 * k..48 * k + 48];
                row[..40].copy_from_slice(&e.name.x_bytes());
                row[40..44].copy_from_slice(&e.id.to_le_bytes());
                row[44..].copy_from_slice(&e.chunks.to_le_bytes());
                k += 1;
            });
            let rows = rows_text(&lent.rows[..48 * k]);
            match r {
                Ok(()) => format!("ok {k}{rows}"),
                Err(e) => format!("{} rows {k}{rows}", refuse(e)),
            }
        }
        "counts" => {
            let mut counts = [0u32; 64];
            let r = store.as_ref().unwrap().x_counts(m, &mut counts, sector);
            let t: Vec<_> = counts.iter().map(u32::to_string).collect();
            format!("{} {}", r.map_or_else(refuse, |()| "ok".into()), t.join(","))
        }
        "free" => match store.as_ref().unwrap().x_free(m, sector) {
            Ok(c) => format!("ok {}", c.map_or("-".to_string(), |c| c.to_string())),
            Err(e) => refuse(e),
        },
        "free_count" => {
            if bad {
                return "no 3".into();
            }
            // the Rust has no such call (02, S-3): what its walk of the table leaves over
            let (s, mut counts) = (store.as_ref().unwrap(), [0u32; 64]);
            match s.x_counts(m, &mut counts, sector) {
                Ok(()) => format!("ok {}", s.chunks() - counts.iter().sum::<u32>()),
                Err(e) => refuse(e),
            }
        }
        "find" => {
            if bad {
                return "no 3".into();
            }
            let n = name!(1);
            match store.as_ref().unwrap().x_find(m, &n, sector) {
                Ok((slot, id)) => format!("ok {slot} {id}"),
                Err(e) => refuse(e),
            }
        }
        "reader" => {
            if bad {
                return "no 3".into();
            }
            let n = name!(1);
            match store.as_ref().unwrap().reader(m, &n, sector) {
                Ok(r) => {
                    *reader = Some(r);
                    format!("ok {}", r.x_chunks())
                }
                Err(e) => refuse(e),
            }
        }
        "next" => {
            let Some(r) = reader else { return "-- no reader".into() };
            let s = store.as_ref().unwrap();
            if lent.out.len() < PAYLOAD {
                return "no 2".into(); // as at list
            }
            if bad || rule3 && bad_reader(r, s) {
                return "no 3".into();
            }
            match r.next(s, m, (&mut lent.out[..PAYLOAD]).try_into().unwrap(), sector) {
                Ok(next) => next_text(next, &lent.out),
                Err(e) => refuse(e),
            }
        }
        "record" => {
            let (Some(r), Some(s)) = (reader, store) else { return "-- no reader".into() };
            let n = u64::from(r.x_position()) * u64::from(s.chunk_sectors()) + u64::from(r.x_index());
            if rule3 && n > u32::MAX.into() {
                return "no 3".into(); // the port's test; the Rust overflows
            }
            format!("ok {}", r.record(s))
        }
        "seek" => {
            let Some(r) = reader else { return "-- no reader".into() };
            let s = store.as_ref().unwrap();
            if bad || rule3 && bad_reader(r, s) {
                return "no 3".into();
            }
            let n = words.get(1).and_then(|w| num(w)).unwrap_or(0) as u32;
            match r.seek(s, m, n, sector) {
                Ok(()) => format!("ok {}", r.record(s)),
                Err(e) => refuse(e),
            }
        }
        _ => "-- word".into(),
    }
}

/// Whether both copies are valid and of one generation: there format is not as the Rust's (02, S-7).
pub fn equal_generations(m: &Medium) -> bool {
    let mut m = Medium { unreadable: u64::MAX, ..m.clone() };
    matches!(Store::x_generations(&mut m, &mut [0; 512]), Ok([Some(a), Some(b)]) if a == b)
}

/// A format. At equal generations the Rust writes over A, the copy that mount takes, and by S-7 B is written. No byte of
/// a header tells its place, so the Rust is asked with the two places exchanged: it writes over B what it would write over A.
fn format(m: &mut Medium, seed: u64, size: u32, sector: &mut Sector, equal: bool) -> Result<Store, Error> {
    m.exchanged = equal;
    let made = Store::x_format(m, seed, size, sector);
    m.exchanged = false;
    made.map(|mut s| {
        s.x_set("copy", s.x_copy() ^ u64::from(equal));
        s
    })
}

/// An append. By the port's numbers a record that needs another chunk at position 32,767 or above is refused with 7
/// (docs/DIFFERENCES.md): the Rust is stopped there by a medium without writes, which closes the appender too and changes
/// nothing else. An append that cannot get so far is one call.
fn append(a: &mut Appender, s: &mut Store, m: &mut Medium, bytes: &[u8], sector: &mut Sector, rule3: bool) -> Result<(), Error> {
    let mut rest = bytes;
    while rule3 && a.x_position() as usize + rest.len() / 486 >= 32767 && rest.len() >= a.room() {
        let (record, more) = rest.split_at(a.room());
        if a.x_position() >= 32767 && a.x_tail() == (0, s.chunk_sectors()) {
            let left = std::mem::take(&mut m.left);
            a.append(s, m, record, sector).expect_err("no write is left");
            m.left = left;
            return Err(Error::Corrupt);
        }
        a.append(s, m, record, sector)?;
        rest = more;
    }
    a.append(s, m, rest, sector)
}

/// Whether format or create is 01's 12 where the Rust overflows: the last generation, or the last id.
fn is_spent(st: &State, call: &str) -> bool {
    match call {
        "format" => st.m.sectors() > 64 && [0, 32].iter().any(|h| st.m.generation(*h) == u64::MAX),
        "create" => st.store.as_ref().is_some_and(|s| s.x_next_id() == u32::MAX),
        _ => false,
    }
}

/// 01's 12, the port's own. As any error in flushing it closes the appender.
fn spend(st: &mut State, call: &str) -> String {
    if let (Some(a), "append" | "appendn" | "sync") = (&mut st.app, call) {
        a.x_set("closed", 0);
    }
    "no 12".into()
}

/// The words of a line.
pub fn words(line: &str) -> Vec<&str> {
    line.split('#').next().unwrap().split_whitespace().collect()
}

/// A script as it runs.
pub struct Session {
    pub st: State,
    pub lent: Lent,
    pub rule3: bool,
    /// Which names are refused with 16, where `rule3` is on; `earlier CALL` is the call without that.
    pub retires: Retires,
    /// The blank sectors of the last hole (02, S-4).
    blank: u64,
    saved: HashMap<String, State>,
    trace: bool,
    echo: bool,
}

impl Session {
    pub fn new(rule3: bool) -> Self {
        Store::x_set_token(0);
        Session {
            st: State { m: Medium::new(128 * 512), store: None, map: [0; 33], app: None, reader: None, token: 0 },
            lent: Lent::new(80, 3200, 500),
            rule3,
            retires,
            blank: 0,
            saved: HashMap::new(),
            trace: false,
            echo: false,
        }
    }

    /// Runs a line; what it prints, if anything.
    pub fn line(&mut self, line: &str) -> Option<String> {
        let line = line.split('#').next().unwrap().trim();
        let w = words(line);
        let earlier = w.first() == Some(&"earlier");
        let w = &w[usize::from(earlier)..];
        if w.is_empty() {
            return None;
        }
        let echoed = if self.echo { format!("{line:<40} ") } else { String::new() };
        let Session { st, lent, rule3, retires, blank, saved, trace, echo } = self;
        let n = |i: usize| w.get(i).and_then(|t| num(t));
        let echoing = *echo;
        let quiet = |t: &str| if echoing { t.to_string() } else { String::new() };
        let answer = match w[0] {
            "volume" => {
                // volume SECTORS [zero|ff|rand SEED] [EXTRA BYTES]
                let mut m = Medium::new(n(1).unwrap() as usize * 512 + n(4).unwrap_or(0) as usize);
                match w.get(2) {
                    Some(&"ff") => m.volume.fill(255),
                    Some(&"rand") => {
                        let mut x = n(3).unwrap();
                        for b in m.volume.iter_mut() {
                            x = Store::x_mix(x);
                            *b = x as u8;
                        }
                    }
                    _ => {}
                }
                m.entropy = st.m.entropy;
                m.ops = st.m.ops.as_ref().map(|_| vec![]);
                *st = State { m, store: None, map: [0; 33], app: None, reader: None, token: 0 };
                Store::x_set_token(0);
                quiet("set")
            }
            "volumefile" => { // volumefile PATH: the volume's bytes from a file
                let mut m = Medium::new(0);
                m.volume = std::fs::read(w[1]).unwrap();
                m.entropy = st.m.entropy;
                m.ops = st.m.ops.as_ref().map(|_| vec![]);
                *st = State { m, store: None, map: [0; 33], app: None, reader: None, token: 0 };
                Store::x_set_token(0);
                quiet("set")
            }
            "savevolume" => { std::fs::write(w[1], &st.m.volume).unwrap(); quiet("set") }
            "setleft" => { st.m.left = n(1).unwrap().min(u64::from(u32::MAX)) as u32; quiet("set") }
            "unreadable" => { st.m.unreadable = n(1).unwrap(); quiet("set") }
            "entropy" => { st.m.entropy = n(1).unwrap(); quiet("set") }
            "token" => { Store::x_set_token(n(1).unwrap() as u32); quiet("set") }
            "trace" => { *trace = w.get(1) == Some(&"on"); quiet("set") }
            "rule3" => { *rule3 = w.get(1) == Some(&"on"); quiet("set") }
            "echo" => { *echo = w.get(1) == Some(&"on"); String::new() }
            "buffers" => { // buffers COUNTS ROWS OUT: the lengths that a caller lends
                let k = |i| n(i).unwrap() as usize;
                *lent = Lent::new(k(1), k(2), k(3));
                quiet("set")
            }
            "poke" => { // poke SECTOR OFFSET HEX
                let at = n(1).unwrap() as usize * 512 + n(2).unwrap() as usize;
                st.m.put(at, &unhex(w[3]).unwrap());
                quiet("set")
            }
            "fill" => { // fill SECTOR BYTE
                st.m.put(n(1).unwrap() as usize * 512, &[n(2).unwrap() as u8; 512]);
                quiet("set")
            }
            "seal" => { st.m.seal(n(1).unwrap()); quiet("set") }
            "bodycrc" => { st.m.bodycrc(n(1).unwrap(), n(2).unwrap()); quiet("set") }
            "copysector" => {
                let s = st.m.sector(n(1).unwrap()).to_vec();
                st.m.put(n(2).unwrap() as usize * 512, &s);
                quiet("set")
            }
            "save" => { saved.insert(w[1].into(), st.copy()); quiet("set") }
            "load" => { // load NAME [volume|store|appender|reader]...
                let s = saved[w[1]].copy();
                let all = w.len() == 2;
                if all { Store::x_set_token(saved[w[1]].token); }
                if all || w.contains(&"volume") { st.m = s.m; }
                if all || w.contains(&"store") { (st.store, st.map) = (s.store, s.map); }
                if all || w.contains(&"appender") { st.app = s.app; }
                if all || w.contains(&"reader") { st.reader = s.reader; }
                quiet("set")
            }
            "set" => { // set store|appender|reader FIELD VALUE
                let v = n(3).unwrap_or(0);
                let ok = match w[1] {
                    "store" => st.store.as_mut().is_some_and(|s| s.x_set(w[2], v)),
                    "appender" if w[2] == "rollover" => {
                        let d = match w[3] { "-" => None, t => {
                            let t = bytes_of(t);
                            let mut b = [0; 40];
                            b[..t.len().min(40)].copy_from_slice(&t[..t.len().min(40)]);
                            Some(Dir::x_raw(b, t.len() as u8)) } };
                        st.app.as_mut().map(|a| a.x_set_rollover(d)).is_some()
                    }
                    "appender" => st.app.as_mut().is_some_and(|a| a.x_set(w[2], v)),
                    "reader" => st.reader.as_mut().is_some_and(|r| r.x_set(w[2], v)),
                    _ => false,
                };
                if ok { quiet("set") } else { "-- field".into() }
            }
            "sum" => format!("sum {:016x}", sum(&st.m.volume)),
            "crc32" => format!("{:08x}", crc32(&unhex(w[1]).unwrap())), // crc32 HEX
            "dump" => { // dump SECTOR OFFSET LENGTH
                let at = n(1).unwrap() as usize * 512 + n(2).unwrap_or(0) as usize;
                hex(&st.m.volume[at..at + n(3).unwrap_or(512) as usize])
            }
            "ops" => match (w.get(1), &st.m.ops) { // ops on, then ops after a call
                (Some(&"on"), _) => { st.m.ops = Some(vec![]); quiet("set") }
                (_, Some(o)) => format!("ops {}", o.join(" ")),
                _ => "-- ops on first".into(),
            },
            "left" => format!("left {}", st.m.left),
            "wrote" => format!("wrote {}", st.m.log.len()),
            "writes" => {
                let t: Vec<_> = st.m.log.iter().map(|(s, k)| format!("{s}{}", match k { Kind::Commit => "C", Kind::Record => "R", _ => "" })).collect();
                format!("writes {} [{}] reads {}", st.m.log.len(), t.join(" "), st.m.reads)
            }
            "show" => {
                let mut t = vec![];
                if w.len() == 1 || w[1] == "medium" { t.push(format!("medium left={} unreadable={} entropy={} token={}", st.m.left, st.m.unreadable, st.m.entropy, Store::x_token())); }
                if w.len() == 1 || w[1] == "store" { t.push(st.store.as_ref().map_or("store -".into(), show_store)); }
                if w.len() == 1 || w[1] == "appender" { t.push(st.app.as_ref().map_or("appender -".into(), show_app)); }
                if w.len() == 1 || w[1] == "reader" { t.push(st.reader.as_ref().map_or("reader -".into(), show_reader)); }
                t.join("\n")
            }
            "mix" => format!("{:016x}", Store::x_mix(n(1).unwrap())),
            "link" => { // link SLOT POSITION RECORDS|-
                let mut s = [0; 512];
                Store::x_put_link(&mut s, 0, n(1).unwrap() as usize, n(2).unwrap() as u32, n(3).map(|r| r as u32));
                hex(&s[..4])
            }
            "say" => line.to_string(),
            "blank" => format!("blank {blank}"),
            _ => {
                st.m.begin();
                st.m.spent = *rule3;
                *lent = lent.anew();
                let retires = (*rule3 && !earlier).then_some(*retires);
                let r = catch_unwind(AssertUnwindSafe(|| call(st, lent, w, *rule3, retires)));
                let r = r.unwrap_or_else(|e| {
                    let t = e.downcast_ref::<String>().cloned().or(e.downcast_ref::<&str>().map(|s| s.to_string()));
                    let t = t.unwrap_or_default();
                    if *rule3 && (e.is::<Spent>() || t == "attempt to add with overflow" && is_spent(st, w[0])) {
                        return spend(st, w[0]);
                    }
                    format!("panic {t}")
                });
                if let (Some((from, to)), Some(s), Some(behind)) = (hole(&r), &st.store, &st.reader) {
                    *blank = hole_blanks(&st.m, s, behind, from, to);
                }
                if *trace {
                    format!(
                        "{r}\n  left={} token={} sum={:016x} writes={}\n  {}\n  {}\n  {}",
                        st.m.left, Store::x_token(), sum(&st.m.volume), st.m.log.len(),
                        st.store.as_ref().map_or("store -".into(), show_store),
                        st.app.as_ref().map_or("appender -".into(), show_app),
                        st.reader.as_ref().map_or("reader -".into(), show_reader)
                    )
                } else {
                    r
                }
            }
        };
        (*echo || !answer.is_empty()).then(|| echoed + &answer)
    }
}

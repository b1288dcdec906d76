//! The functions of crates/bridge and crates/bridge_write, and what crosses:
//! numbers in the order that their src/lib.rt have.
use driver::script::{Lent, Map, Session, State, bytes_of, hole, next_text, num, rows_text};
use driver::{Appender, Medium, Next, Reader, Store, unhex};

#[link(name = "bridge", kind = "static")]
unsafe extern "C" {
    pub fn port_mount(volume: *const u8, length: usize, medium: &mut [u64; 4], store: &mut [u64; 43], crcs: &mut [u32; 24]) -> u32;
    pub fn port_free_count(
        volume: *const u8, length: usize, medium: &mut [u64; 4], store: &[u64; 43], crcs: &[u32; 24], answer: &mut [u64; 3],
    ) -> u32;
    pub fn port_find(
        volume: *const u8, length: usize, medium: &mut [u64; 4], store: &[u64; 43], crcs: &[u32; 24],
        name: *const u8, name_length: usize, answer: &mut [u64; 3],
    ) -> u32;
    pub fn port_list(
        volume: *const u8, length: usize, medium: &mut [u64; 4], store: &[u64; 43], crcs: &[u32; 24],
        dir: *const u8, dir_length: usize, counts: *mut u16, counts_length: usize, rows: *mut u8, rows_length: usize,
        answer: &mut [u64; 3],
    ) -> u32;
    pub fn port_reader(
        volume: *const u8, length: usize, medium: &mut [u64; 4], store: &[u64; 43], crcs: &[u32; 24],
        name: *const u8, name_length: usize, reader: &mut [u64; 10],
    ) -> u32;
    pub fn port_next(
        volume: *const u8, length: usize, medium: &mut [u64; 4], store: &[u64; 43], crcs: &[u32; 24],
        reader: &mut [u64; 10], out: *mut u8, out_length: usize, answer: &mut [u64; 4],
    ) -> u32;
    pub fn port_seek(
        volume: *const u8, length: usize, medium: &mut [u64; 4], store: &[u64; 43], crcs: &[u32; 24],
        reader: &mut [u64; 10], record: u32,
    ) -> u32;
    pub fn port_record(store: &[u64; 43], crcs: &[u32; 24], reader: &[u64; 10], answer: &mut [u64; 3]) -> u32;
}

#[link(name = "bridge_write", kind = "static")]
unsafe extern "C" {
    pub fn port_format(
        volume: *mut u8, length: usize, medium: &mut [u64; 4], size: u32, seed: u64,
        store: &mut [u64; 43], crcs: &mut [u32; 24],
    ) -> u32;
    pub fn port_delete(
        volume: *mut u8, length: usize, medium: &mut [u64; 4], store: &mut [u64; 43], crcs: &mut [u32; 24],
        name: *const u8, name_length: usize,
    ) -> u32;
    pub fn port_delete_oldest(
        volume: *mut u8, length: usize, medium: &mut [u64; 4], store: &mut [u64; 43], crcs: &mut [u32; 24],
        dir: *const u8, dir_length: usize, answer: &mut [u64; 3], gone: &mut [u8; 40],
    ) -> u32;
    pub fn port_append(
        volume: *mut u8, length: usize, medium: &mut [u64; 4], store: &mut [u64; 43], crcs: &mut [u32; 24],
        appender: &mut [u64; 10], buffer: &mut [u8; 486], dir: &mut [u8; 40], bytes: *const u8, bytes_length: usize,
    ) -> u32;
    pub fn port_sync(
        volume: *mut u8, length: usize, medium: &mut [u64; 4], store: &mut [u64; 43], crcs: &mut [u32; 24],
        appender: &mut [u64; 10], buffer: &mut [u8; 486], dir: &mut [u8; 40],
    ) -> u32;
    pub fn port_create(
        volume: *mut u8, length: usize, medium: &mut [u64; 4], store: &mut [u64; 43], crcs: &mut [u32; 24],
        name: *const u8, name_length: usize, rolls: u32, dir: *const u8, dir_length: usize,
        appender: &mut [u64; 10], buffer: &mut [u8; 486], over: &mut [u8; 40],
    ) -> u32;
    pub fn port_open_append(
        volume: *const u8, length: usize, medium: &mut [u64; 4], store: &mut [u64; 43], crcs: &mut [u32; 24],
        name: *const u8, name_length: usize, rolls: u32, dir: *const u8, dir_length: usize,
        appender: &mut [u64; 10], buffer: &mut [u8; 486], over: &mut [u8; 40],
    ) -> u32;
    pub fn port_room(appender: &[u64; 10], buffer: &[u8; 486], dir: &[u8; 40], answer: &mut [u64; 3]) -> u32;
}

/// The calls that write, with their volume compared.
const WRITING: &[&str] = &["format", "create", "open_append", "append", "appendn", "sync", "delete", "delete_oldest"];

pub fn medium_words(m: &Medium) -> [u64; 4] {
    [m.left.into(), m.unreadable, m.entropy, Store::x_token().into()]
}

pub fn store_words(s: &Store) -> ([u64; 10], [u32; 24]) {
    let (kind, token, id) = s.x_writer().map_or((0, 0, 0), |(t, i)| (1, t.into(), i.into()));
    let (next, cursor) = (s.x_next_id().into(), s.x_cursor().into());
    let (chunks, size) = (s.chunks().into(), s.chunk_sectors().into());
    ([s.x_copy(), s.store_id(), s.generation(), next, cursor, chunks, size, kind, token, id], s.x_crcs())
}

/// A store value's row: the Rust's numbers, then the port's map.
pub fn row(ten: [u64; 10], map: Map) -> [u64; 43] {
    std::array::from_fn(|i| if i < 10 { ten[i] } else { map[i - 10] })
}

pub fn ten_of(row: &[u64; 43]) -> [u64; 10] {
    row[..10].try_into().unwrap()
}

pub fn map_of(row: &[u64; 43]) -> Map {
    row[10..].try_into().unwrap()
}

/// The row and the checksums of the store in hand.
pub fn store_row(st: &State) -> Option<([u64; 43], [u32; 24])> {
    st.store.as_ref().map(store_words).map(|(ten, crcs)| (row(ten, st.map), crcs))
}

pub fn reader_words(r: &Reader) -> [u64; 10] {
    let (kind, end) = r.x_end().map_or((0, 0), |e| (1, e.into()));
    let (chunks, chunk) = (r.x_chunks().into(), r.x_chunk().into());
    let (position, index) = (r.x_position().into(), r.x_index().into());
    [r.x_store(), r.x_generation(), r.x_slot() as u64, r.x_id().into(), chunks, chunk, kind, end, position, index]
}

/// An appender as it crosses.
#[derive(Clone, PartialEq, Eq)]
pub struct Words {
    pub small: [u64; 10],
    pub buffer: [u8; 486],
    pub dir: [u8; 40],
}

/// Where no rollover is set its bytes and length are not looked at: any will do, and they come back.
const NO_DIR: ([u8; 40], u64) = ([0xee; 40], 77);
/// What a refused create or open_append gives: all zeros, and closed.
pub const NO_APPENDER: Words = Words { small: [0, 0, 0, 0, 0, 2, 0, 0, 0, 0], buffer: [0; 486], dir: [0; 40] };

/// `unset`: the directory where no rollover is set.
pub fn appender_words(a: &Appender, unset: ([u8; 40], u64)) -> Words {
    let (kind, count) = a.x_tail();
    let (dir, length) = a.x_rollover().map_or(unset, |d| (d.x_parts().0, d.x_parts().1.into()));
    let rolls = u64::from(a.x_rollover().is_some());
    let (chunk, position) = (a.x_chunk().into(), a.x_position().into());
    let (kind, count, fill) = (kind.into(), count.into(), a.x_fill() as u64);
    let small = [a.x_token().into(), a.x_slot() as u64, a.x_id().into(), chunk, position, kind, count, fill, rolls, length];
    Words { small, buffer: a.x_buffer(), dir }
}

/// A way to count the blank sectors of a hole: `driver::hole_blanks`, or a wrong one.
pub type Count = fn(&Medium, &Store, &Reader, u32, u32) -> u64;

/// What a call gave back.
pub struct Told {
    text: String,
    medium: [u64; 4],
    /// Of mount and of the calls that write.
    store: ([u64; 10], [u32; 24]),
    /// With it; the Rust has none, `Play` holds it to the table.
    pub map: Option<Map>,
    /// Of reader, next and seek.
    reader: [u64; 10],
    /// Of next: the blank sectors of a hole (02, S-4). The Rust has none: they are counted in the volume.
    pub blank: u64,
    /// Of create, open_append, append and sync.
    appender: Words,
    /// The bytes lent for the name that delete_oldest tells.
    gone: [u8; 40],
    lent: Lent,
    /// Of the calls that write; the others cannot.
    volume: Vec<u8>,
}

impl Told {
    /// From what the Rust left. A refused mount, format or reader gives a handle of zeros.
    pub fn rust(session: &Session, call: &str, text: &str, count: Count) -> Self {
        let st = &session.st;
        let accepted = text.starts_with("ok");
        let new = matches!(call, "mount" | "format");
        let store = st.store.as_ref().filter(|_| new && accepted || !new && WRITING.contains(&call)).map(store_words);
        let reader = st.reader.as_ref().filter(|_| matches!(call, "next" | "seek") || call == "reader" && accepted);
        let appender = match (call, &st.app) {
            ("create" | "open_append", Some(a)) if accepted => appender_words(a, ([0; 40], 0)),
            ("append" | "appendn" | "sync", Some(a)) => appender_words(a, NO_DIR),
            _ => NO_APPENDER,
        };
        let mut gone = lent_name();
        if let (true, Some(name)) = (call == "delete_oldest", text.strip_prefix("ok 1 ")) {
            gone[..name.len()].copy_from_slice(name.as_bytes());
        }
        Told {
            text: text.into(),
            medium: medium_words(&st.m),
            store: store.unwrap_or_default(),
            map: None,
            reader: reader.map(reader_words).unwrap_or_default(),
            blank: hole(text).map_or(0, |(from, to)| count(&st.m, st.store.as_ref().unwrap(), st.reader.as_ref().unwrap(), from, to)),
            appender,
            gone,
            lent: session.lent.clone(),
            volume: vec![],
        }
    }

    /// The writes that the port has left.
    pub fn left(&self) -> u64 {
        self.medium[0]
    }

    /// What differs, in words. `volume`: as the Rust left it.
    pub fn differs(&self, port: &Told, volume: &[u8]) -> Option<String> {
        let first = |a: &[u8], b: &[u8]| a.iter().zip(b).position(|(x, y)| x != y).unwrap_or(a.len().min(b.len()));
        let show = |what: &str, rust: String, port: String| Some(format!("{what}\nthe Rust {rust}\nthe port {port}"));
        if self.text != port.text {
            return show("answer", self.text.clone(), port.text.clone());
        }
        if self.medium != port.medium {
            return show("medium", format!("{:?}", self.medium), format!("{:?}", port.medium));
        }
        if self.store != port.store {
            return show("store", format!("{:?}", self.store), format!("{:?}", port.store));
        }
        if self.reader != port.reader {
            return show("reader", format!("{:?}", self.reader), format!("{:?}", port.reader));
        }
        if self.blank != port.blank {
            return show("blank sectors of the hole, counted in the volume", self.blank.to_string(), port.blank.to_string());
        }
        let (a, b) = (&self.appender, &port.appender);
        if a.small != b.small {
            return show("appender", format!("{:?}", a.small), format!("{:?}", b.small));
        }
        let (c, d) = (&self.lent, &port.lent);
        if c.counts != d.counts {
            return show("counts", format!("{:?}", c.counts), format!("{:?}", d.counts));
        }
        for (what, a, b) in [
            ("appender's buffer", &a.buffer[..], &b.buffer[..]), ("appender's directory", &a.dir, &b.dir),
            ("name lent", &self.gone, &port.gone), ("rows", &c.rows, &d.rows), ("output", &c.out, &d.out),
        ] {
            if a != b {
                let at = first(a, b);
                return show(&format!("{what}, from byte {at}"), format!("{:02x?}", &a[at..]), format!("{:02x?}", &b[at..]));
            }
        }
        if !port.volume.is_empty() && port.volume != volume {
            let at = first(volume, &port.volume);
            let (a, b) = (&volume[at..(at / 512 * 512 + 512).min(volume.len())], &port.volume[at..]);
            let what = format!("volume, sector {} from byte {}", at / 512, at % 512);
            return show(&what, format!("{:02x?}", a), format!("{:02x?}", &b[..a.len()]));
        }
        None
    }
}

/// The bytes that are lent for a name.
fn lent_name() -> [u8; 40] {
    std::array::from_fn(|i| i as u8 * 5 + 1)
}

/// The port's answer to a line's call, if it is one that the port has and its handles are there.
pub fn ask(session: &Session, w: &[&str]) -> Option<Told> {
    let st = &session.st;
    let mut told = Told {
        text: String::new(),
        medium: medium_words(&st.m),
        store: Default::default(),
        map: None,
        reader: Default::default(),
        blank: 0,
        appender: NO_APPENDER,
        gone: lent_name(),
        lent: session.lent.anew(),
        volume: vec![],
    };
    if WRITING.contains(&w[0]) {
        return ask_writing(session, w, told);
    }
    let v = &st.m.volume;
    let text = |i: usize| bytes_of(w.get(i).copied().unwrap_or("\"\""));
    let (at, length) = (v.as_ptr(), v.len());
    let answer = &mut [u64::MAX; 3];
    if w[0] == "mount" {
        let (store, crcs) = (&mut [u64::MAX; 43], &mut [u32::MAX; 24]);
        // SAFETY: each pointer is that of a live slice of the length beside it.
        let no = unsafe { port_mount(at, length, &mut told.medium, store, crcs) };
        (told.store, told.map) = ((ten_of(store), *crcs), Some(map_of(store)));
        told.text = if no == 0 { format!("ok {}", store[5]) } else { format!("no {no}") };
        return Some(told);
    }
    let (store, crcs) = store_row(st)?;
    match w[0] {
        "free_count" => {
            // SAFETY: as above.
            let no = unsafe { port_free_count(at, length, &mut told.medium, &store, &crcs, answer) };
            told.text = if no == 0 { format!("ok {}", answer[0]) } else { format!("no {no}") };
        }
        "find" => {
            let name = text(1);
            // SAFETY: as above.
            let no = unsafe {
                port_find(at, length, &mut told.medium, &store, &crcs, name.as_ptr(), name.len(), answer)
            };
            told.text = if no == 0 { format!("ok {} {}", answer[0], answer[1]) } else { format!("no {no}") };
        }
        "list" => {
            let dir = text(1);
            let Lent { counts, rows, .. } = &mut told.lent;
            // SAFETY: as above.
            let no = unsafe {
                port_list(
                    at, length, &mut told.medium, &store, &crcs, dir.as_ptr(), dir.len(),
                    counts.as_mut_ptr(), counts.len(), rows.as_mut_ptr(), rows.len(), answer,
                )
            };
            let k = answer[0] as usize;
            let rows = rows_text(&rows[..(48 * k).min(rows.len())]);
            told.text = match no {
                0 => format!("ok {k}{rows}"),
                1..=3 => format!("no {no}"),
                _ => format!("no {no} rows {k}{rows}"),
            };
        }
        "reader" => {
            let name = text(1);
            told.reader = [u64::MAX; 10];
            // SAFETY: as above.
            let no = unsafe {
                port_reader(at, length, &mut told.medium, &store, &crcs, name.as_ptr(), name.len(), &mut told.reader)
            };
            told.text = if no == 0 { format!("ok {}", told.reader[4]) } else { format!("no {no}") };
        }
        "next" => {
            told.reader = st.reader.as_ref().map(reader_words)?;
            let (out, answer) = (&mut told.lent.out, &mut [u64::MAX; 4]);
            // SAFETY: as above.
            let no = unsafe {
                port_next(
                    at, length, &mut told.medium, &store, &crcs, &mut told.reader, out.as_mut_ptr(), out.len(), answer,
                )
            };
            told.text = match (no, answer[0]) {
                (0, 0) => next_text(Next::End, out),
                (0, 1) => next_text(Next::Record((answer[1] as usize).min(out.len())), out),
                (0, _) => next_text(Next::Hole { from: answer[1] as u32, to: answer[2] as u32 }, out),
                _ => format!("no {no}"),
            };
            // what is no hole has no count, and no number is left as it was
            told.blank = answer[3];
        }
        "seek" => {
            told.reader = st.reader.as_ref().map(reader_words)?;
            let n = w.get(1).and_then(|w| num(w)).unwrap_or(0) as u32;
            // SAFETY: as above.
            let mut no =
                unsafe { port_seek(at, length, &mut told.medium, &store, &crcs, &mut told.reader, n) };
            if no == 0 {
                // SAFETY: as above.
                no = unsafe { port_record(&store, &crcs, &told.reader, answer) };
            }
            told.text = if no == 0 { format!("ok {}", answer[0]) } else { format!("no {no}") };
        }
        "record" => {
            let reader = st.reader.as_ref().map(reader_words)?;
            // SAFETY: as above.
            let no = unsafe { port_record(&store, &crcs, &reader, answer) };
            told.text = if no == 0 { format!("ok {}", answer[0]) } else { format!("no {no}") };
        }
        _ => return None,
    }
    Some(told)
}

/// The bytes that append and appendn take.
pub fn appended(w: &[&str]) -> Option<Vec<u8>> {
    let n = |i: usize, none: u64| w.get(i).and_then(|w| num(w)).unwrap_or(none);
    match w[0] {
        "append" => unhex(w.get(1).filter(|w| **w != "\"\"").copied().unwrap_or("")),
        _ => Some(vec![n(2, 0x61) as u8; n(1, 0) as usize]),
    }
}

/// The same for a call that writes; it works on a copy of the volume.
fn ask_writing(session: &Session, w: &[&str], mut told: Told) -> Option<Told> {
    let st = &session.st;
    told.volume.clone_from(&st.m.volume);
    let (at, length) = (told.volume.as_mut_ptr(), told.volume.len());
    let text = |i: usize| bytes_of(w.get(i).copied().unwrap_or("\"\""));
    let no_or = |no: u32, ok: String| if no == 0 { format!("ok {ok}") } else { format!("no {no}") };
    let answer = &mut [u64::MAX; 3];
    if w[0] == "format" {
        let (size, seed) = (w.get(1).and_then(|w| num(w))?, w.get(2).and_then(|w| num(w))?);
        let (store, crcs) = (&mut [u64::MAX; 43], &mut [u32::MAX; 24]);
        // SAFETY: each pointer is that of a live slice of the length beside it.
        let no = unsafe { port_format(at, length, &mut told.medium, size as u32, seed, store, crcs) };
        (told.store, told.map) = ((ten_of(store), *crcs), Some(map_of(store)));
        told.text = no_or(no, store[5].to_string());
        return Some(told);
    }
    let (store, crcs) = &mut store_row(st)?;
    match w[0] {
        "delete" => {
            let name = text(1);
            // SAFETY: as above.
            let no = unsafe { port_delete(at, length, &mut told.medium, store, crcs, name.as_ptr(), name.len()) };
            told.text = no_or(no, "0".into());
        }
        "delete_oldest" => {
            let dir = text(1);
            // SAFETY: as above.
            let no = unsafe {
                port_delete_oldest(
                    at, length, &mut told.medium, store, crcs, dir.as_ptr(), dir.len(), answer, &mut told.gone,
                )
            };
            let name = String::from_utf8_lossy(&told.gone[..answer[1].min(40) as usize]);
            told.text = no_or(no, if answer[0] == 0 { "0".into() } else { format!("{} {name}", answer[0]) });
        }
        "create" | "open_append" => {
            let (name, rolls) = (text(1), u32::from(w.get(2).is_some_and(|d| *d != "-")));
            // a directory that is not set is not looked at
            let dir = if rolls == 0 { bytes_of("+/none") } else { text(2) };
            let (name, n, dir, k) = (name.as_ptr(), name.len(), dir.as_ptr(), dir.len());
            told.appender = Words { small: [u64::MAX; 10], buffer: [0xee; 486], dir: [0xee; 40] };
            let Words { small, buffer, dir: over } = &mut told.appender;
            // SAFETY: as above.
            let no = unsafe {
                if w[0] == "create" {
                    port_create(at, length, &mut told.medium, store, crcs, name, n, rolls, dir, k, small, buffer, over)
                } else {
                    port_open_append(at, length, &mut told.medium, store, crcs, name, n, rolls, dir, k, small, buffer, over)
                }
            };
            told.text = no_or(no, small[2].to_string());
        }
        "append" | "appendn" | "sync" => {
            told.appender = appender_words(st.app.as_ref()?, NO_DIR);
            let Words { small, buffer, dir } = &mut told.appender;
            // SAFETY: as above.
            let mut no = if w[0] == "sync" {
                unsafe { port_sync(at, length, &mut told.medium, store, crcs, small, buffer, dir) }
            } else {
                let b = appended(w)?;
                unsafe { port_append(at, length, &mut told.medium, store, crcs, small, buffer, dir, b.as_ptr(), b.len()) }
            };
            if no == 0 {
                // SAFETY: as above.
                no = unsafe { port_room(small, buffer, dir, answer) };
            }
            told.text = no_or(no, answer[0].to_string());
        }
        _ => return None,
    }
    (told.store, told.map) = ((ten_of(store), *crcs), Some(map_of(store)));
    Some(told)
}

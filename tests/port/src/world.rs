//! The port alone: the volume as left and the handles last returned, as numbers, and a call on them.
use crate::bridge::*;
use crate::map;
use driver::book::{Call, bytes_of};
use driver::rig::Op;

/// A call with its writes left and unreadable sector; a mount or format may bring another entropy and token.
#[derive(Clone)]
pub struct Turn {
    pub op: Op,
    pub fresh: Option<(u64, u32)>,
}

/// A plain call.
pub fn turn(call: Call) -> Turn {
    Turn { op: Op { call, left: None, unreadable: None, off: false }, fresh: None }
}

/// What crosses has the order that crates/bridge and crates/bridge_write give. All zeros before the first
/// accepted call that makes a handle.
#[derive(Clone, PartialEq, Eq)]
pub struct World {
    pub volume: Vec<u8>,
    /// left, unreadable, entropy, token
    pub medium: [u64; 4],
    /// copy, id, generation, next id, cursor, chunks, sectors per chunk, writer, its token, its file id; whether the map is fit, its 32 words
    pub store: [u64; 43],
    pub crcs: [u32; 24],
    /// token, slot, id, chunk, position, tail, its count, fill, rolls over, length of the directory
    pub appender: [u64; 10],
    buffer: [u8; 486],
    dir: [u8; 40],
    /// store id, generation, slot, id, chunks, chunk, end known, the records there, position, index
    pub reader: [u64; 10],
}

/// What a call told beside the handles.
#[derive(Clone, Default, PartialEq, Eq, Debug)]
pub struct Told {
    pub refusal: u32,
    pub answer: u64,
    pub rows: Vec<(u32, String, u32)>,
    pub next: Option<Next>,
    pub name: Option<String>,
}

#[derive(Clone, PartialEq, Eq, Debug)]
pub enum Next {
    Payload(Vec<u8>),
    Hole,
    End,
    /// Bytes past the payload were changed.
    Spilt,
}

impl World {
    pub fn new(volume: Vec<u8>) -> Self {
        World {
            volume,
            medium: [u32::MAX.into(), u64::MAX, 0, 0],
            store: [0; 43],
            crcs: [0; 24],
            appender: [0, 0, 0, 0, 0, 2, 0, 0, 0, 0],
            buffer: [0; 486],
            dir: [0; 40],
            reader: [0; 10],
        }
    }

    pub fn sectors(&self) -> u64 {
        self.volume.len() as u64 / 512
    }

    /// 01's number 3 for the store value, and 02's, S-3, for its map.
    pub fn bad_store(&self) -> bool {
        let [copy, id, _, next, cursor, chunks, size, ..] = self.store;
        let outside = !(1..=2048).contains(&chunks) || !(1..=512).contains(&size) || cursor >= chunks;
        let map = map::bad(&map_of(&self.store), chunks);
        copy > 1 || id == 0 || next == 0 || outside || chunks * size + 64 > self.sectors() || map
    }

    /// For the appender. A history's rollover is a directory.
    pub fn bad_appender(&self) -> bool {
        let [_, slot, id, chunk, position, tail, count, fill, ..] = self.appender;
        let size = self.store[6];
        let ends = match tail {
            0 => count > size,
            1 => count < 1 || count >= size,
            _ => false,
        };
        slot > 63 || id == 0 || chunk >= self.store[5] || position > 2047 || fill > 486 || fill == 486 && tail < 2 || ends
    }

    /// For the reader.
    pub fn bad_reader(&self) -> bool {
        let [_, _, slot, id, chunks, chunk, known, end, position, index] = self.reader;
        let past = index > self.store[6] || known != 0 && end > self.store[6];
        slot > 63 || id == 0 || !(1..=2048).contains(&chunks) || chunk >= self.store[5] || position > chunks || past
    }

    /// A turn with so many writes left.
    pub fn run(&mut self, turn: &Turn, left: u32) -> Told {
        if let Some((entropy, token)) = turn.fresh {
            self.medium = [0, 0, entropy, token.into()];
        }
        (self.medium[0], self.medium[1]) = (left.into(), turn.op.unreadable.unwrap_or(u64::MAX));
        let mut told = Told::default();
        told.refusal = match &turn.op.call {
            Call::Mount | Call::Format(..) => self.started(&turn.op.call, &mut told),
            Call::Create(name, dir) | Call::OpenAppend(name, dir) => {
                self.opened(matches!(turn.op.call, Call::Create(..)), name, dir.as_deref(), &mut told)
            }
            Call::Append(..) | Call::Sync => self.flushed(&turn.op.call, &mut told),
            Call::Delete(_) | Call::DeleteOldest(_) => self.removed(&turn.op.call, &mut told),
            Call::List(dir) => self.list(dir, &mut told),
            Call::Find(_) | Call::Reader(_) => self.looked(&turn.op.call, &mut told),
            Call::Next => self.next(&mut told),
            Call::Seek(n) => self.seek(*n, &mut told),
        };
        told
    }

    /// A refused mount or format hands back no store.
    fn started(&mut self, call: &Call, told: &mut Told) -> u32 {
        let (store, crcs) = (&mut [u64::MAX; 43], &mut [u32::MAX; 24]);
        let (at, length) = (self.volume.as_mut_ptr(), self.volume.len());
        // SAFETY: here and below, each pointer is that of a live slice of the length beside it.
        let no = unsafe {
            match call {
                Call::Format(size, seed) => port_format(at, length, &mut self.medium, *size, *seed, store, crcs),
                _ => port_mount(at, length, &mut self.medium, store, crcs),
            }
        };
        if no == 0 {
            (self.store, self.crcs, told.answer) = (*store, *crcs, store[5]);
        }
        no
    }

    /// A refused create or open_append hands back no appender.
    fn opened(&mut self, new: bool, name: &str, dir: Option<&str>, told: &mut Told) -> u32 {
        let (mut small, mut buffer, mut over) = ([u64::MAX; 10], [0xee; 486], [0xee; 40]);
        let (at, length, rolls) = (self.volume.as_mut_ptr(), self.volume.len(), u32::from(dir.is_some()));
        // one that is not set is not looked at
        let dir = dir.unwrap_or("+/none");
        let (n, d) = (name.as_ptr(), dir.as_ptr());
        let World { medium: m, store: s, crcs: c, .. } = self;
        let no = unsafe {
            if new {
                port_create(at, length, m, s, c, n, name.len(), rolls, d, dir.len(), &mut small, &mut buffer, &mut over)
            } else {
                port_open_append(at, length, m, s, c, n, name.len(), rolls, d, dir.len(), &mut small, &mut buffer, &mut over)
            }
        };
        if no == 0 {
            (self.appender, self.buffer, self.dir, told.answer) = (small, buffer, over, small[2]);
        }
        no
    }

    fn flushed(&mut self, call: &Call, told: &mut Told) -> u32 {
        let World { volume: v, medium: m, store: s, crcs: c, appender: a, buffer: b, dir: d, .. } = self;
        let no = unsafe {
            match call {
                Call::Append(n, tag) => {
                    let bytes = bytes_of(*n, *tag);
                    port_append(v.as_mut_ptr(), v.len(), m, s, c, a, b, d, bytes.as_ptr(), bytes.len())
                }
                _ => port_sync(v.as_mut_ptr(), v.len(), m, s, c, a, b, d),
            }
        };
        let answer = &mut [u64::MAX; 3];
        if no == 0 {
            unsafe { port_room(a, b, d, answer) };
            told.answer = answer[0];
        }
        no
    }

    fn removed(&mut self, call: &Call, told: &mut Told) -> u32 {
        let World { volume: v, medium: m, store: s, crcs: c, .. } = self;
        let (answer, gone) = (&mut [0; 3], &mut [0xee; 40]);
        let no = unsafe {
            match call {
                Call::Delete(name) => port_delete(v.as_mut_ptr(), v.len(), m, s, c, name.as_ptr(), name.len()),
                Call::DeleteOldest(dir) => {
                    port_delete_oldest(v.as_mut_ptr(), v.len(), m, s, c, dir.as_ptr(), dir.len(), answer, gone)
                }
                _ => unreachable!(),
            }
        };
        if no == 0 && answer[0] == 1 {
            told.answer = 1;
            told.name = Some(String::from_utf8_lossy(&gone[..answer[1].min(40) as usize]).into());
        }
        no
    }

    fn list(&mut self, dir: &str, told: &mut Told) -> u32 {
        let World { volume: v, medium: m, store: s, crcs: c, .. } = self;
        let (counts, rows, answer) = (&mut [0xeeee_u16; 64], &mut [0xee_u8; 3072], &mut [0; 3]);
        let no = unsafe {
            port_list(
                v.as_ptr(), v.len(), m, s, c, dir.as_ptr(), dir.len(),
                counts.as_mut_ptr(), counts.len(), rows.as_mut_ptr(), rows.len(), answer,
            )
        };
        let number = |b: &[u8]| u32::from_le_bytes(b.try_into().unwrap());
        told.answer = answer[0];
        told.rows = rows
            .chunks_exact(48)
            .take(answer[0] as usize)
            .map(|r| {
                let end = r[..40].iter().position(|b| *b == 0).unwrap_or(40);
                (number(&r[40..44]), String::from_utf8_lossy(&r[..end]).into(), number(&r[44..]))
            })
            .collect();
        no
    }

    /// Not of the book: how many chunks are free, or the refusal.
    pub fn free_count(&mut self) -> (u32, u64) {
        let World { volume: v, medium: m, store: s, crcs: c, .. } = self;
        let answer = &mut [u64::MAX; 3];
        (unsafe { port_free_count(v.as_ptr(), v.len(), m, s, c, answer) }, answer[0])
    }

    fn looked(&mut self, call: &Call, told: &mut Told) -> u32 {
        let World { volume: v, medium: m, store: s, crcs: c, .. } = self;
        let (answer, reader) = (&mut [0; 3], &mut [u64::MAX; 10]);
        match call {
            Call::Find(name) => {
                let no = unsafe { port_find(v.as_ptr(), v.len(), m, s, c, name.as_ptr(), name.len(), answer) };
                told.answer = answer[1];
                no
            }
            Call::Reader(name) => {
                let no = unsafe { port_reader(v.as_ptr(), v.len(), m, s, c, name.as_ptr(), name.len(), reader) };
                if no == 0 {
                    (self.reader, told.answer) = (*reader, reader[4]);
                }
                no
            }
            _ => unreachable!(),
        }
    }

    fn next(&mut self, told: &mut Told) -> u32 {
        let World { volume: v, medium: m, store: s, crcs: c, reader: r, .. } = self;
        let (out, answer) = (&mut [0x5a_u8; 500], &mut [0; 4]);
        let no = unsafe { port_next(v.as_ptr(), v.len(), m, s, c, r, out.as_mut_ptr(), out.len(), answer) };
        let length = if no == 0 && answer[0] == 1 { answer[1] as usize } else { 0 };
        told.next = match answer[0] {
            _ if length > 486 || out[length..].iter().any(|b| *b != 0x5a) => Some(Next::Spilt),
            _ if no != 0 => None,
            0 => Some(Next::End),
            1 => Some(Next::Payload(out[..length].into())),
            _ => Some(Next::Hole),
        };
        no
    }

    /// The answer is the number of the record that next reads.
    fn seek(&mut self, n: u32, told: &mut Told) -> u32 {
        let World { volume: v, medium: m, store: s, crcs: c, reader: r, .. } = self;
        let answer = &mut [0; 3];
        let mut no = unsafe { port_seek(v.as_ptr(), v.len(), m, s, c, r, n) };
        if no == 0 {
            no = unsafe { port_record(s, c, r, answer) };
        }
        told.answer = answer[0];
        no
    }
}

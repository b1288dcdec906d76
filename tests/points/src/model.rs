//! S-1 over the unchanged Rust, made from 02's words and not from the port: setting a point, reading
//! up to one, and the reader up to a record number. README.md says which clause stands where.
use crate::faults::Fault;
use driver::*;
use std::panic::{AssertUnwindSafe, catch_unwind, resume_unwind};

pub const MARKS: &str = "MARKS";

pub fn marks() -> Name {
    Name::new(MARKS).unwrap()
}

/// 1 to 16 bytes of the name alphabet without `/`.
pub fn point_ok(point: &[u8]) -> bool {
    (1..=16).contains(&point.len()) && point.iter().all(|b| b.is_ascii_alphanumeric() || b"._-".contains(b))
}

/// The line of a point.
pub fn line(point: &[u8], id: u32, record: u32) -> Vec<u8> {
    let mut l = point.to_vec();
    l.extend(format!("\t{id}\t{record}\n").bytes());
    l
}

/// What a reader gives.
#[derive(Clone, Debug, PartialEq, Eq)]
pub enum Item {
    Payload(Vec<u8>),
    Hole(u32, u32),
    End,
}

/// One call of a plain reader.
pub fn next_item(r: &mut Reader, store: &Store, m: &mut Medium) -> Result<Item, u32> {
    let mut out = [0x5a; PAYLOAD];
    Ok(match r.next(store, m, &mut out, &mut [0; 512]).map_err(number)? {
        Next::Record(n) => Item::Payload(out[..n].to_vec()),
        Next::Hole { from, to } => Item::Hole(from, to),
        Next::End => Item::End,
    })
}

/// What a setting answers. `appender`: that of MARKS, where it was opened, refused or not.
pub struct Marked {
    pub answer: Result<u32, u32>,
    pub appender: Option<Appender>,
}

/// A reader, and the record number at which it ends.
#[derive(Clone, Copy, Debug, PartialEq, Eq)]
pub struct Upto {
    pub reader: Reader,
    pub limit: u32,
}

/// A call of the Rust in 01's numbers. Its 12 is the driver's: at a commit's first write, or where the
/// Rust overflows on the last id.
fn numbered<T>(last_id: bool, call: impl FnOnce() -> Result<T, Error>) -> Result<T, u32> {
    let overflow = |e: &Box<dyn std::any::Any + Send>| {
        let text = e.downcast_ref::<&str>().copied().or(e.downcast_ref::<String>().map(String::as_str));
        text == Some("attempt to add with overflow")
    };
    match catch_unwind(AssertUnwindSafe(call)) {
        Ok(r) => r.map_err(number),
        Err(e) if e.is::<Spent>() || last_id && overflow(&e) => Err(12),
        Err(e) => resume_unwind(e),
    }
}

#[derive(Clone, Copy)]
pub struct Model {
    pub fault: Fault,
}

impl Model {
    fn has(&self, fault: Fault) -> bool {
        self.fault == fault
    }

    fn point_ok(&self, point: &[u8]) -> bool {
        point_ok(point) || self.has(Fault::Seventeen) && point.len() == 17 && point_ok(&point[1..])
    }

    /// A number in decimal, 32 bits, no leading zero.
    fn number32(&self, text: &[u8]) -> Option<u32> {
        let leading = text.len() > 1 && text[0] == b'0' && !self.has(Fault::LeadingZero);
        if text.is_empty() || !text.iter().all(u8::is_ascii_digit) || leading {
            return None;
        }
        let mut value: u64 = 0;
        for b in text {
            value = value * 10 + u64::from(b - b'0');
            if value > u64::from(u32::MAX) {
                return None;
            }
        }
        Some(value as u32)
    }

    /// The id and the number, if a payload is wholly one line with this name.
    pub fn says(&self, payload: &[u8], point: &[u8]) -> Option<(u32, u32)> {
        let rest = payload.strip_prefix(point)?.strip_prefix(b"\t")?;
        let tab = rest.iter().position(|b| *b == b'\t')?;
        let record = if self.has(Fault::TrailingBytes) {
            rest[tab + 1..].split(|b| *b == b'\n').next()?
        } else {
            rest[tab + 1..].strip_suffix(b"\n")?
        };
        Some((self.number32(&rest[..tab])?, self.number32(record)?))
    }

    /// The first line with the name in MARKS; what stands behind it is not read.
    fn look(&self, store: &Store, m: &mut Medium, point: &[u8]) -> Result<Option<(u32, u32)>, u32> {
        let mut r = store.reader(m, &marks(), &mut [0; 512]).map_err(number)?;
        let mut found = None;
        loop {
            match next_item(&mut r, store, m)? {
                Item::Payload(p) => {
                    if let Some(said) = self.says(&p, point) {
                        if self.has(Fault::LastLine) {
                            found = Some(said);
                        } else if self.has(Fault::ReadsOn) {
                            found = found.or(Some(said));
                        } else {
                            return Ok(Some(said));
                        }
                    }
                }
                Item::Hole(..) => {}
                Item::End => return Ok(found),
            }
        }
    }

    /// The file read to its end: its id, and the record number there.
    fn end_of(&self, store: &Store, m: &mut Medium, name: &Name) -> Result<(u32, u32), u32> {
        let mut r = store.reader(m, name, &mut [0; 512]).map_err(number)?;
        let mut payloads = 0;
        loop {
            match next_item(&mut r, store, m)? {
                Item::End if self.has(Fault::PayloadsCounted) => return Ok((r.x_id(), payloads)),
                Item::End => return Ok((r.x_id(), r.record(store))),
                Item::Payload(_) => payloads += 1,
                Item::Hole(..) => {}
            }
        }
    }

    /// MARKS made if absent, else opened, with no rollover.
    fn open(&self, store: &mut Store, m: &mut Medium, absent: bool) -> Result<Appender, u32> {
        let (sector, rollover) = (&mut [0; 512], self.has(Fault::RollsOver).then_some(Dir::ROOT));
        let last_id = absent && store.x_next_id() == u32::MAX;
        numbered(last_id, || {
            if absent { store.create(m, &marks(), rollover, sector) } else { store.open_append(m, &marks(), rollover, sector) }
        })
    }

    /// Refusals 3, 1 and 13; nothing is read.
    fn asked(&self, store: &Store, m: &Medium, point: &[u8], file: &[u8]) -> Result<Name, u32> {
        if bad_store(store, m.sectors()) {
            return Err(3);
        }
        if self.has(Fault::PointBeforeName) && !self.point_ok(point) {
            return Err(13);
        }
        let name = Name::new(std::str::from_utf8(file).map_err(|_| 1u32)?).map_err(number)?;
        if self.point_ok(point) { Ok(name) } else { Err(13) }
    }

    /// All tests and reads: the file's id and its number, and whether MARKS is absent.
    fn tests(&self, store: &Store, m: &mut Medium, point: &[u8], name: &Name) -> Result<(u32, u32, bool), u32> {
        if self.has(Fault::FileBeforeKnown) {
            self.end_of(store, m, name)?;
        }
        let absent = match self.look(store, m, point) {
            Ok(Some(_)) => return Err(14),
            Ok(None) => false,
            Err(9) => true,
            Err(n) => return Err(n),
        };
        let (id, record) = self.end_of(store, m, name)?;
        Ok((id, record, absent))
    }

    /// Set a point. Refused before MARKS is opened, it leaves all handles as they were.
    pub fn set(&self, store: &mut Store, m: &mut Medium, point: &[u8], file: &[u8]) -> Marked {
        let no = |n| Marked { answer: Err(n), appender: None };
        m.begin();
        m.spent = true;
        let name = match self.asked(store, m, point, file) {
            Ok(name) => name,
            Err(n) => return no(n),
        };
        if self.has(Fault::OpensFirst) {
            let absent = store.reader(m, &marks(), &mut [0; 512]).is_err_and(|e| number(e) == 9);
            let _ = self.open(store, m, absent);
        }
        let (id, record, absent) = match self.tests(store, m, point, &name) {
            Ok(found) => found,
            Err(n) => return no(n),
        };
        match self.open(store, m, absent) {
            Err(n) => no(n),
            Ok(mut a) => {
                let answer = self.write(&mut a, store, m, &line(point, id, record)).map(|()| record);
                Marked { answer, appender: Some(a) }
            }
        }
    }

    /// The line appended and synced. 12 closes the appender, as any error in flushing does.
    fn write(&self, a: &mut Appender, store: &mut Store, m: &mut Medium, line: &[u8]) -> Result<(), u32> {
        let sector: &mut Sector = &mut [0; 512];
        a.append(store, m, line, sector).map_err(number)?;
        if self.has(Fault::Unsynced) {
            return Ok(());
        }
        let synced = numbered(false, || a.sync(store, m, sector));
        if synced == Err(12) {
            a.x_set("closed", 0);
        }
        synced
    }

    /// Read up to a point: a reader of the file from its start, with the point's number.
    pub fn read(&self, store: &Store, m: &mut Medium, point: &[u8]) -> Result<Upto, u32> {
        m.begin();
        if bad_store(store, m.sectors()) {
            return Err(3);
        }
        if !self.point_ok(point) {
            return Err(13);
        }
        let (id, limit) = self.look(store, m, point)?.ok_or(9u32)?;
        let sector: &mut Sector = &mut [0; 512];
        let lost = if self.has(Fault::LostUnknown) { 9u32 } else { 15 };
        let mut slot = store.x_find_id(m, id, sector).map_err(number)?.ok_or(lost)?;
        if self.has(Fault::HighestSlot) {
            slot = highest_slot(store, m, id).unwrap_or(slot);
        }
        let reader = store.x_reader_at(m, slot, id, sector).map_err(number)?;
        Ok(Upto { reader, limit })
    }

    /// The next of a reader up to a number. Output past a payload's length is unchanged, and all of it
    /// where no payload is given.
    pub fn next(&self, u: &mut Upto, store: &Store, m: &mut Medium, out: &mut [u8]) -> Result<Item, u32> {
        m.begin();
        if out.len() < PAYLOAD {
            return Err(2);
        }
        if bad_store(store, m.sectors()) || bad_reader(&u.reader, store) {
            return Err(3);
        }
        if (u.reader.x_store(), u.reader.x_generation()) != (store.store_id(), store.generation()) {
            return Err(11);
        }
        // all below the number was given: the end, with nothing read
        if u.reader.record(store) >= u.limit && !self.has(Fault::ReadsAtLimit) {
            return Ok(Item::End);
        }
        let more = u.reader.x_arrive(store, m, &mut [0; 512]).map_err(number)?;
        if !more || u.reader.record(store) >= u.limit.saturating_add(self.has(Fault::LimitLate).into()) {
            return Ok(Item::End);
        }
        match next_item(&mut u.reader, store, m)? {
            Item::Payload(p) => {
                out[..p.len()].copy_from_slice(&p);
                Ok(Item::Payload(p))
            }
            // a hole lies in one chunk, so the cut is an index of it
            Item::Hole(from, to) if to > u.limit && !self.has(Fault::HoleUncut) => {
                let back = if self.has(Fault::CutReaderPast) { 0 } else { to - u.limit };
                let index = u.reader.x_index() - back;
                u.reader.x_set("index", index.into());
                Ok(Item::Hole(from, u.limit))
            }
            other => Ok(other),
        }
    }
}

/// For a fault: of the slots with the id the highest, read off the directory's bytes.
fn highest_slot(store: &Store, m: &Medium, id: u32) -> Option<usize> {
    let at = (32 * (store.x_copy() & 1) as usize + 1) * 512;
    m.volume[at..at + 64 * 64].chunks_exact(64).rposition(|e| e[0] != 0 && e[40..44] == id.to_le_bytes())
}

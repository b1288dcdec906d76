//! The medium record of 01, refusal numbers, and 01's rule 3 (Handle). README.md
//! says what 01 is.
pub mod book;
pub mod rig;
pub mod script;
pub use services::checksum::crc32;
pub use services::store::{Appender, Dir, Entry, Error, MAGIC, Name, Next, PAYLOAD, Reader, Sector, Store, mount};
use device_api::bulk::{Error as MediaError, OwnedInfo, ReadWrite, SECTOR_SIZE};

/// What a sector write was.
#[derive(Clone, Copy, Debug, PartialEq, Eq)]
pub enum Kind {
    /// A header that carries the magic: a commit's (or format's) last write.
    Commit,
    /// A data sector.
    Record,
    Other,
}

#[derive(Clone)]
pub struct Medium {
    pub volume: Vec<u8>,
    pub left: u32,
    /// S or more means none.
    pub unreadable: u64,
    pub entropy: u64,
    pub log: Vec<(u64, Kind)>,
    pub refused_write: bool,
    pub refused_read: bool,
    pub reads: u64,
    /// Reads and writes in order, when kept.
    pub ops: Option<Vec<String>>,
    /// A commit of the last generation ends in `Spent` before its first write.
    pub spent: bool,
    /// The Rust finds copy A where B stands, and B where A stands.
    pub exchanged: bool,
}

/// 01's refusal 12 in a commit, unwound out of the Rust, which has no such number.
pub struct Spent;

impl Medium {
    pub fn new(bytes: usize) -> Self {
        Medium {
            volume: vec![0; bytes],
            left: u32::MAX,
            unreadable: u64::MAX,
            entropy: 0,
            log: vec![],
            refused_write: false,
            refused_read: false,
            reads: 0,
            ops: None,
            spent: false,
            exchanged: false,
        }
    }
    /// Where the sector stands that the Rust asks for.
    fn place(&self, sector: u64) -> u64 {
        if self.exchanged && sector < 64 { sector ^ 32 } else { sector }
    }
    /// The generation that a header has, magic or not.
    pub fn generation(&self, header: u64) -> u64 {
        u64::from_le_bytes(self.sector(header)[32..40].try_into().unwrap())
    }
    pub fn sectors(&self) -> u64 {
        (self.volume.len() / SECTOR_SIZE) as u64
    }
    pub fn sector(&self, n: u64) -> &[u8] {
        &self.volume[n as usize * SECTOR_SIZE..][..SECTOR_SIZE]
    }
    pub fn begin(&mut self) {
        self.log.clear();
        self.refused_write = false;
        self.refused_read = false;
        self.exchanged = false; // left so by a format that ended in 12
        self.reads = 0;
        if let Some(o) = &mut self.ops {
            o.clear();
        }
    }
    pub fn put(&mut self, at: usize, bytes: &[u8]) {
        self.volume[at..at + bytes.len()].copy_from_slice(bytes);
    }
    /// Recompute the CRC of a header or record sector.
    pub fn seal(&mut self, sector: u64) {
        let at = sector as usize * SECTOR_SIZE;
        let crc = crc32(&self.volume[at..at + 508]);
        self.put(at + 508, &crc.to_le_bytes());
    }
    /// List body sector `k`'s checksum in the header of `copy` and seal it.
    pub fn bodycrc(&mut self, copy: u64, k: u64) {
        let base = copy * 32;
        let crc = crc32(self.sector(base + 1 + k));
        self.put(base as usize * SECTOR_SIZE + 64 + 4 * k as usize, &crc.to_le_bytes());
        self.seal(base);
    }
}

impl ReadWrite for Medium {
    fn owned_info(&mut self) -> Result<OwnedInfo, MediaError> {
        Ok(OwnedInfo { sectors: self.sectors() })
    }
    fn owned_read(&mut self, sector: u64, out: &mut [u8; SECTOR_SIZE]) -> Result<(), MediaError> {
        let sector = self.place(sector);
        self.reads += 1;
        if let Some(o) = &mut self.ops {
            o.push(format!("r{sector}"));
        }
        assert!(sector < self.sectors(), "read of sector {sector} outside the volume");
        if sector == self.unreadable {
            self.refused_read = true;
            return Err(MediaError::Refused);
        }
        out.copy_from_slice(self.sector(sector));
        Ok(())
    }
    fn owned_write(&mut self, sector: u64, data: &[u8; SECTOR_SIZE]) -> Result<(), MediaError> {
        let sector = self.place(sector);
        assert!(sector < self.sectors(), "write of sector {sector} outside the volume");
        // Only a commit writes a header of zeros, its first write; the other header is then the current one.
        if self.spent && (sector == 0 || sector == 32) && *data == [0; SECTOR_SIZE] && self.generation(32 - sector) == u64::MAX {
            std::panic::resume_unwind(Box::new(Spent));
        }
        if self.left == 0 {
            self.refused_write = true;
            return Err(MediaError::Refused);
        }
        self.left -= 1;
        if let Some(o) = &mut self.ops {
            o.push(format!("w{sector}"));
        }
        let kind = if sector >= 64 {
            Kind::Record
        } else if sector % 32 == 0 && data[..16] == MAGIC[..] {
            Kind::Commit
        } else {
            Kind::Other
        };
        self.log.push((sector, kind));
        let at = sector as usize * SECTOR_SIZE;
        self.volume[at..at + SECTOR_SIZE].copy_from_slice(data);
        Ok(())
    }
    fn entropy(&mut self) -> u64 {
        self.entropy
    }
}

/// 01's refusal numbers.
pub fn number(error: Error) -> u32 {
    match error {
        Error::Name => 1,
        Error::Range => 2,
        Error::Media(_) => 4,
        Error::Uninitialized => 5,
        Error::Foreign => 6,
        Error::Corrupt => 7,
        Error::Exists => 8,
        Error::NotFound => 9,
        Error::Full => 10,
        Error::Stale => 11,
    }
}

/// 01's rule 3 for a store value.
pub fn bad_store(store: &Store, sectors: u64) -> bool {
    let (chunks, size) = (u64::from(store.chunks()), u64::from(store.chunk_sectors()));
    store.x_copy() > 1
        || store.store_id() == 0
        || store.x_next_id() == 0
        || !(1..=2048).contains(&chunks)
        || !(1..=512).contains(&size)
        || u64::from(store.x_cursor()) >= chunks
        || sectors < 64
        || chunks * size > sectors - 64
}

/// 01's rule 3 for an appender.
pub fn bad_appender(a: &Appender, store: &Store) -> bool {
    let size = store.chunk_sectors();
    let (kind, count) = a.x_tail();
    a.x_slot() > 63
        || a.x_id() == 0
        || a.x_chunk() >= store.chunks()
        || a.x_position() > 2047
        || a.x_fill() > 486
        || (a.x_fill() == 486 && kind != 2)
        || (kind == 0 && count > size)
        || (kind == 1 && !(1..size).contains(&count))
        || a.x_rollover().is_some_and(|d| {
            let (bytes, length) = d.x_parts();
            length > 40
                || std::str::from_utf8(&bytes[..length as usize]).map_or(true, |t| Dir::new(t).is_err())
        })
}

/// 01's rule 3 for a reader.
pub fn bad_reader(r: &Reader, store: &Store) -> bool {
    let size = store.chunk_sectors();
    r.x_slot() > 63
        || r.x_id() == 0
        || !(1..=2048).contains(&r.x_chunks())
        || r.x_chunk() >= store.chunks()
        || r.x_position() > r.x_chunks()
        || r.x_index() > size
        || r.x_end().is_some_and(|e| e > size)
}

/// The sectors of a hole, from the reader that stands behind it.
pub fn hole_sectors(store: &Store, behind: &Reader, from: u32, to: u32) -> std::ops::Range<u64> {
    let end = 64 + u64::from(behind.x_chunk()) * u64::from(store.chunk_sectors()) + u64::from(behind.x_index());
    end - u64::from(to - from)..end
}

/// 02, S-4: how many of them are blank.
pub fn hole_blanks(m: &Medium, store: &Store, behind: &Reader, from: u32, to: u32) -> u64 {
    let blank = |n: &u64| [0, 255].iter().any(|byte| m.sector(*n).iter().all(|b| b == byte));
    hole_sectors(store, behind, from, to).filter(blank).count() as u64
}

/// 02, S-5: a dot name, one of whose segments begins with a dot.
pub fn dotted(name: &[u8]) -> bool {
    name.split(|b| *b == b'/').any(|segment| segment.starts_with(b"."))
}

/// FNV-1a of 64 bits, by which volumes are compared. Not a CRC-32: that of a volume does not
/// change with what stands in a sector that ends in its own CRC-32, as headers and records do.
pub fn sum(bytes: &[u8]) -> u64 {
    bytes.iter().fold(0xcbf29ce484222325, |h, b| (h ^ u64::from(*b)).wrapping_mul(0x100000001b3))
}

pub fn hex(bytes: &[u8]) -> String {
    bytes.iter().map(|b| format!("{b:02x}")).collect()
}

pub fn unhex(text: &str) -> Option<Vec<u8>> {
    if text.len() % 2 != 0 {
        return None;
    }
    (0..text.len() / 2).map(|i| u8::from_str_radix(text.get(2 * i..2 * i + 2)?, 16).ok()).collect()
}

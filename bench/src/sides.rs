//! One set of calls for both: the Rust with its own handles, the port with the numbers that cross.
use device_api::bulk::{Error as MediaError, OwnedInfo, ReadWrite, SECTOR_SIZE};
use services::store::{Appender, Dir, Error, Name, Next, PAYLOAD, Reader, Sector, Store, mount};

/// A side of the comparison. Nothing here may be refused: a refusal ends the program.
pub trait Side: 'static {
    fn new(sectors: usize) -> Self;
    /// The checksum of these bytes, put into the first four of `out`.
    fn crc32(&mut self, bytes: &[u8]);
    /// The same, where the Rust has 16 entries too.
    fn crc32_of_16(&mut self, bytes: &[u8]);
    fn format(&mut self, size: u32, seed: u64);
    fn mount(&mut self);
    /// The refusal of a mount of the first `sectors` sectors.
    fn mount_of(&mut self, sectors: usize) -> u32;
    fn find(&mut self, name: &str) -> u64;
    /// The number of rows, laid out as 01 has them.
    fn list(&mut self, dir: &str) -> usize;
    fn create(&mut self, name: &str, rollover: Option<&str>);
    fn open_append(&mut self, name: &str);
    fn append(&mut self, bytes: &[u8]);
    /// Mounts, opens the file and appends the same bytes so many times: one call of the side, so that nothing
    /// crosses between the appends. How many were accepted.
    fn append_times(&mut self, name: &str, bytes: &[u8], times: u32) -> u32;
    fn sync(&mut self);
    fn delete(&mut self, name: &str);
    fn reader(&mut self, name: &str);
    fn seek(&mut self, record: u32);
    /// The payload's length, or nothing at the end.
    fn next(&mut self) -> Option<usize>;
    /// How many records the hole has that comes next.
    fn hole(&mut self) -> u32;
    /// The sectors of these records of the only file with records, changed.
    fn lose(&mut self, records: std::ops::Range<u32>, how: fn(&mut [u8]));
    fn volume(&self) -> &[u8];
    fn rows(&self) -> &[u8];
    fn out(&self) -> &[u8];
}

struct Medium {
    volume: Vec<u8>,
    sectors: u64,
    left: u32,
    unreadable: u64,
    entropy: u64,
}

impl ReadWrite for Medium {
    fn owned_info(&mut self) -> Result<OwnedInfo, MediaError> {
        Ok(OwnedInfo { sectors: self.sectors })
    }
    fn owned_read(&mut self, sector: u64, out: &mut [u8; SECTOR_SIZE]) -> Result<(), MediaError> {
        if sector == self.unreadable {
            return Err(MediaError::Refused);
        }
        out.copy_from_slice(&self.volume[sector as usize * SECTOR_SIZE..][..SECTOR_SIZE]);
        Ok(())
    }
    fn owned_write(&mut self, sector: u64, data: &[u8; SECTOR_SIZE]) -> Result<(), MediaError> {
        if self.left == 0 {
            return Err(MediaError::Refused);
        }
        self.left -= 1;
        self.volume[sector as usize * SECTOR_SIZE..][..SECTOR_SIZE].copy_from_slice(data);
        Ok(())
    }
    fn entropy(&mut self) -> u64 {
        self.entropy
    }
}

pub struct Rust {
    medium: Medium,
    sector: Sector,
    store: Option<Store>,
    appender: Option<Appender>,
    reader: Option<Reader>,
    rows: Vec<u8>,
    out: [u8; PAYLOAD],
}

fn fine<T>(r: Result<T, Error>) -> T {
    r.unwrap_or_else(|e| panic!("the Rust refused: {e:?}"))
}

impl Side for Rust {
    fn new(sectors: usize) -> Self {
        let volume = vec![0xff; sectors * SECTOR_SIZE];
        let medium = Medium { volume, sectors: sectors as u64, left: u32::MAX, unreadable: u64::MAX, entropy: 7 };
        let rows = vec![0; 64 * 48];
        Rust { medium, sector: [0; 512], store: None, appender: None, reader: None, rows, out: [0; PAYLOAD] }
    }
    fn crc32(&mut self, bytes: &[u8]) {
        self.out[..4].copy_from_slice(&services::checksum::crc32(bytes).to_le_bytes());
    }
    fn crc32_of_16(&mut self, bytes: &[u8]) {
        self.out[..4].copy_from_slice(&crate::sixteen::crc32(bytes).to_le_bytes());
    }
    #[inline(never)]
    fn format(&mut self, size: u32, seed: u64) {
        self.medium.left = u32::MAX;
        self.store = Some(fine(Store::x_format(&mut self.medium, seed, size, &mut self.sector)));
    }
    #[inline(never)]
    fn mount(&mut self) {
        self.store = Some(fine(mount(&mut self.medium, &mut self.sector)));
    }
    #[inline(never)]
    fn mount_of(&mut self, sectors: usize) -> u32 {
        let whole = std::mem::replace(&mut self.medium.sectors, sectors as u64);
        let r = mount(&mut self.medium, &mut self.sector);
        self.medium.sectors = whole;
        matches!(r, Err(Error::Range)) as u32 * 2
    }
    #[inline(never)]
    fn find(&mut self, name: &str) -> u64 {
        let name = fine(Name::new(name));
        fine(self.store.as_ref().unwrap().x_find(&mut self.medium, &name, &mut self.sector)).0 as u64
    }
    #[inline(never)]
    fn list(&mut self, dir: &str) -> usize {
        let dir = fine(Dir::new(dir));
        let (mut n, rows) = (0, &mut self.rows);
        fine(self.store.as_ref().unwrap().list(&mut self.medium, &dir, &mut self.sector, |e| {
            let row = &mut rows[48 * n..][..48];
            row[..40].copy_from_slice(&e.name.x_bytes());
            row[40..44].copy_from_slice(&e.id.to_le_bytes());
            row[44..].copy_from_slice(&e.chunks.to_le_bytes());
            n += 1;
        }));
        n
    }
    #[inline(never)]
    fn create(&mut self, name: &str, rollover: Option<&str>) {
        let (name, dir) = (fine(Name::new(name)), rollover.map(|d| fine(Dir::new(d))));
        let store = self.store.as_mut().unwrap();
        self.appender = Some(fine(store.create(&mut self.medium, &name, dir, &mut self.sector)));
    }
    #[inline(never)]
    fn open_append(&mut self, name: &str) {
        let store = self.store.as_mut().unwrap();
        let name = fine(Name::new(name));
        self.appender = Some(fine(store.open_append(&mut self.medium, &name, None, &mut self.sector)));
    }
    #[inline(never)]
    fn append(&mut self, bytes: &[u8]) {
        let (a, s) = (self.appender.as_mut().unwrap(), self.store.as_mut().unwrap());
        fine(a.append(s, &mut self.medium, bytes, &mut self.sector));
    }
    #[inline(never)]
    fn append_times(&mut self, name: &str, bytes: &[u8], times: u32) -> u32 {
        let (medium, sector) = (&mut self.medium, &mut self.sector);
        let mut store = fine(mount(medium, sector));
        let mut appender = fine(store.open_append(medium, &fine(Name::new(name)), None, sector));
        let mut accepted = 0;
        for _ in 0..times {
            accepted += u32::from(appender.append(&mut store, medium, bytes, sector).is_ok());
        }
        accepted
    }
    #[inline(never)]
    fn sync(&mut self) {
        let (a, s) = (self.appender.as_mut().unwrap(), self.store.as_mut().unwrap());
        fine(a.sync(s, &mut self.medium, &mut self.sector));
    }
    #[inline(never)]
    fn delete(&mut self, name: &str) {
        let name = fine(Name::new(name));
        fine(self.store.as_mut().unwrap().delete(&mut self.medium, &name, &mut self.sector));
    }
    #[inline(never)]
    fn reader(&mut self, name: &str) {
        let name = fine(Name::new(name));
        self.reader = Some(fine(self.store.as_ref().unwrap().reader(&mut self.medium, &name, &mut self.sector)));
    }
    #[inline(never)]
    fn seek(&mut self, record: u32) {
        let (r, s) = (self.reader.as_mut().unwrap(), self.store.as_ref().unwrap());
        fine(r.seek(s, &mut self.medium, record, &mut self.sector));
    }
    #[inline(never)]
    fn next(&mut self) -> Option<usize> {
        let (r, s) = (self.reader.as_mut().unwrap(), self.store.as_ref().unwrap());
        match fine(r.next(s, &mut self.medium, &mut self.out, &mut self.sector)) {
            Next::Record(n) => Some(n),
            Next::End => None,
            Next::Hole { .. } => panic!("a hole"),
        }
    }
    #[inline(never)]
    fn hole(&mut self) -> u32 {
        let (r, s) = (self.reader.as_mut().unwrap(), self.store.as_ref().unwrap());
        match fine(r.next(s, &mut self.medium, &mut self.out, &mut self.sector)) {
            Next::Hole { from, to } => to - from,
            _ => panic!("no hole"),
        }
    }
    fn lose(&mut self, records: std::ops::Range<u32>, how: fn(&mut [u8])) {
        lose(&mut self.medium.volume, records, how);
    }
    fn volume(&self) -> &[u8] {
        &self.medium.volume
    }
    fn rows(&self) -> &[u8] {
        &self.rows
    }
    fn out(&self) -> &[u8] {
        &self.out
    }
}

// The order of the numbers is that of crates/bridge/src/lib.rt and crates/bridge_write/src/lib.rt.
#[link(name = "bridge", kind = "static")]
unsafe extern "C" {
    fn port_mount(volume: *const u8, length: usize, medium: &mut [u64; 4], store: &mut [u64; 43], crcs: &mut [u32; 24]) -> u32;
    fn port_find(
        volume: *const u8, length: usize, medium: &mut [u64; 4], store: &[u64; 43], crcs: &[u32; 24],
        name: *const u8, name_length: usize, answer: &mut [u64; 3],
    ) -> u32;
    fn port_list(
        volume: *const u8, length: usize, medium: &mut [u64; 4], store: &[u64; 43], crcs: &[u32; 24],
        dir: *const u8, dir_length: usize, counts: *mut u16, counts_length: usize, rows: *mut u8, rows_length: usize,
        answer: &mut [u64; 3],
    ) -> u32;
    fn port_reader(
        volume: *const u8, length: usize, medium: &mut [u64; 4], store: &[u64; 43], crcs: &[u32; 24],
        name: *const u8, name_length: usize, reader: &mut [u64; 10],
    ) -> u32;
    fn port_next(
        volume: *const u8, length: usize, medium: &mut [u64; 4], store: &[u64; 43], crcs: &[u32; 24],
        reader: &mut [u64; 10], out: *mut u8, out_length: usize, answer: &mut [u64; 4],
    ) -> u32;
    fn port_seek(
        volume: *const u8, length: usize, medium: &mut [u64; 4], store: &[u64; 43], crcs: &[u32; 24],
        reader: &mut [u64; 10], record: u32,
    ) -> u32;
}

#[link(name = "bridge_write", kind = "static")]
unsafe extern "C" {
    fn port_format(
        volume: *mut u8, length: usize, medium: &mut [u64; 4], size: u32, seed: u64,
        store: &mut [u64; 43], crcs: &mut [u32; 24],
    ) -> u32;
    fn port_delete(
        volume: *mut u8, length: usize, medium: &mut [u64; 4], store: &mut [u64; 43], crcs: &mut [u32; 24],
        name: *const u8, name_length: usize,
    ) -> u32;
    fn port_append(
        volume: *mut u8, length: usize, medium: &mut [u64; 4], store: &mut [u64; 43], crcs: &mut [u32; 24],
        appender: &mut [u64; 10], buffer: &mut [u8; 486], dir: &mut [u8; 40], bytes: *const u8, bytes_length: usize,
    ) -> u32;
    fn port_sync(
        volume: *mut u8, length: usize, medium: &mut [u64; 4], store: &mut [u64; 43], crcs: &mut [u32; 24],
        appender: &mut [u64; 10], buffer: &mut [u8; 486], dir: &mut [u8; 40],
    ) -> u32;
    fn port_create(
        volume: *mut u8, length: usize, medium: &mut [u64; 4], store: &mut [u64; 43], crcs: &mut [u32; 24],
        name: *const u8, name_length: usize, rolls: u32, dir: *const u8, dir_length: usize,
        appender: &mut [u64; 10], buffer: &mut [u8; 486], over: &mut [u8; 40],
    ) -> u32;
    fn port_open_append(
        volume: *const u8, length: usize, medium: &mut [u64; 4], store: &mut [u64; 43], crcs: &mut [u32; 24],
        name: *const u8, name_length: usize, rolls: u32, dir: *const u8, dir_length: usize,
        appender: &mut [u64; 10], buffer: &mut [u8; 486], over: &mut [u8; 40],
    ) -> u32;
}

#[link(name = "bench_port", kind = "static")]
unsafe extern "C" {
    fn port_crc32(bytes: *const u8, length: usize) -> u32;
    fn port_append_times(
        volume: *mut u8, length: usize, left: u32, unreadable: u64, entropy: u64,
        name: *const u8, name_length: usize, bytes: *const u8, bytes_length: usize, times: u32,
    ) -> u32;
}

pub struct Port {
    volume: Vec<u8>,
    medium: [u64; 4],
    store: [u64; 43],
    crcs: [u32; 24],
    appender: [u64; 10],
    buffer: [u8; 486],
    over: [u8; 40],
    reader: [u64; 10],
    answer: [u64; 3],
    item: [u64; 4],
    counts: [u16; 64],
    rows: Vec<u8>,
    out: [u8; 486],
}

fn lose(volume: &mut [u8], records: std::ops::Range<u32>, how: fn(&mut [u8])) {
    for sector in volume[64 * SECTOR_SIZE..].chunks_exact_mut(SECTOR_SIZE).filter(|s| s.starts_with(b"CSRD")) {
        if records.contains(&u32::from_le_bytes(sector[16..20].try_into().unwrap())) {
            how(sector);
        }
    }
}

fn done(no: u32) {
    assert_eq!(no, 0, "the port refused");
}

impl Port {
    /// What comes next, in numbers.
    #[inline(always)]
    fn item(&mut self) -> [u64; 4] {
        let Port { volume, medium, store, crcs, reader, out, item, .. } = self;
        // SAFETY: as below.
        done(unsafe {
            port_next(volume.as_ptr(), volume.len(), medium, store, crcs, reader, out.as_mut_ptr(), out.len(), item)
        });
        *item
    }
}

// SAFETY, of every call below: each pointer is that of a live slice of the length beside it, and no two overlap.
impl Side for Port {
    fn new(sectors: usize) -> Self {
        Port {
            volume: vec![0xff; sectors * 512],
            medium: [u32::MAX.into(), u64::MAX, 7, 0],
            store: [0; 43],
            crcs: [0; 24],
            appender: [0; 10],
            buffer: [0; 486],
            over: [0; 40],
            reader: [0; 10],
            answer: [0; 3],
            item: [0; 4],
            counts: [0; 64],
            rows: vec![0; 64 * 48],
            out: [0; 486],
        }
    }
    fn crc32(&mut self, bytes: &[u8]) {
        let sum = unsafe { port_crc32(bytes.as_ptr(), bytes.len()) };
        self.out[..4].copy_from_slice(&sum.to_le_bytes());
    }
    fn crc32_of_16(&mut self, bytes: &[u8]) {
        self.crc32(bytes);
    }
    #[inline(never)]
    fn format(&mut self, size: u32, seed: u64) {
        self.medium[0] = u32::MAX.into();
        let (at, n) = (self.volume.as_mut_ptr(), self.volume.len());
        done(unsafe { port_format(at, n, &mut self.medium, size, seed, &mut self.store, &mut self.crcs) });
    }
    #[inline(never)]
    fn mount(&mut self) {
        let (at, n) = (self.volume.as_ptr(), self.volume.len());
        done(unsafe { port_mount(at, n, &mut self.medium, &mut self.store, &mut self.crcs) });
    }
    #[inline(never)]
    fn mount_of(&mut self, sectors: usize) -> u32 {
        let (mut store, mut crcs) = ([0; 43], [0; 24]);
        unsafe { port_mount(self.volume.as_ptr(), sectors * 512, &mut self.medium, &mut store, &mut crcs) }
    }
    #[inline(never)]
    fn find(&mut self, name: &str) -> u64 {
        let (at, n) = (self.volume.as_ptr(), self.volume.len());
        let Port { medium, store, crcs, answer, .. } = self;
        done(unsafe { port_find(at, n, medium, store, crcs, name.as_ptr(), name.len(), answer) });
        answer[0]
    }
    #[inline(never)]
    fn list(&mut self, dir: &str) -> usize {
        let Port { volume, medium, store, crcs, counts, rows, answer, .. } = self;
        done(unsafe {
            port_list(
                volume.as_ptr(), volume.len(), medium, store, crcs, dir.as_ptr(), dir.len(),
                counts.as_mut_ptr(), counts.len(), rows.as_mut_ptr(), rows.len(), answer,
            )
        });
        answer[0] as usize
    }
    #[inline(never)]
    fn create(&mut self, name: &str, rollover: Option<&str>) {
        let Port { volume, medium, store, crcs, appender, buffer, over, .. } = self;
        let (rolls, dir) = (u32::from(rollover.is_some()), rollover.unwrap_or(""));
        done(unsafe {
            port_create(
                volume.as_mut_ptr(), volume.len(), medium, store, crcs, name.as_ptr(), name.len(), rolls,
                dir.as_ptr(), dir.len(), appender, buffer, over,
            )
        });
    }
    #[inline(never)]
    fn open_append(&mut self, name: &str) {
        let Port { volume, medium, store, crcs, appender, buffer, over, .. } = self;
        done(unsafe {
            port_open_append(
                volume.as_ptr(), volume.len(), medium, store, crcs, name.as_ptr(), name.len(), 0,
                name.as_ptr(), 0, appender, buffer, over,
            )
        });
    }
    #[inline(never)]
    fn append(&mut self, bytes: &[u8]) {
        let Port { volume, medium, store, crcs, appender, buffer, over, .. } = self;
        done(unsafe {
            port_append(
                volume.as_mut_ptr(), volume.len(), medium, store, crcs, appender, buffer, over,
                bytes.as_ptr(), bytes.len(),
            )
        });
    }
    #[inline(never)]
    fn append_times(&mut self, name: &str, bytes: &[u8], times: u32) -> u32 {
        let Port { volume, medium: [left, unreadable, entropy, _], .. } = self;
        unsafe {
            port_append_times(
                volume.as_mut_ptr(), volume.len(), *left as u32, *unreadable, *entropy, name.as_ptr(), name.len(),
                bytes.as_ptr(), bytes.len(), times,
            )
        }
    }
    #[inline(never)]
    fn sync(&mut self) {
        let Port { volume, medium, store, crcs, appender, buffer, over, .. } = self;
        done(unsafe { port_sync(volume.as_mut_ptr(), volume.len(), medium, store, crcs, appender, buffer, over) });
    }
    #[inline(never)]
    fn delete(&mut self, name: &str) {
        let Port { volume, medium, store, crcs, .. } = self;
        done(unsafe { port_delete(volume.as_mut_ptr(), volume.len(), medium, store, crcs, name.as_ptr(), name.len()) });
    }
    #[inline(never)]
    fn reader(&mut self, name: &str) {
        let Port { volume, medium, store, crcs, reader, .. } = self;
        done(unsafe {
            port_reader(volume.as_ptr(), volume.len(), medium, store, crcs, name.as_ptr(), name.len(), reader)
        });
    }
    #[inline(never)]
    fn seek(&mut self, record: u32) {
        let Port { volume, medium, store, crcs, reader, .. } = self;
        done(unsafe { port_seek(volume.as_ptr(), volume.len(), medium, store, crcs, reader, record) });
    }
    #[inline(never)]
    fn next(&mut self) -> Option<usize> {
        match self.item() {
            [0, ..] => None,
            [1, length, ..] => Some(length as usize),
            _ => panic!("a hole"),
        }
    }
    #[inline(never)]
    fn hole(&mut self) -> u32 {
        match self.item() {
            [2, from, to, _] => (to - from) as u32,
            _ => panic!("no hole"),
        }
    }
    fn lose(&mut self, records: std::ops::Range<u32>, how: fn(&mut [u8])) {
        lose(&mut self.volume, records, how);
    }
    fn volume(&self) -> &[u8] {
        &self.volume
    }
    fn rows(&self) -> &[u8] {
        &self.rows
    }
    fn out(&self) -> &[u8] {
        &self.out
    }
}

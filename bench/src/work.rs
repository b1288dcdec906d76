//! The workloads. Each makes its volume anew, sets up what is not measured, then runs its operations.
use crate::sides::Side;

/// Sectors of a chunk, but where a workload says otherwise.
const SIZE: u32 = 64;
const MIB: usize = 1 << 20;

pub struct Work<S> {
    pub name: &'static str,
    pub ops: u32,
    sectors: usize,
    setup: Box<dyn Fn(&mut S)>,
    body: Box<dyn Fn(&mut S)>,
}

impl<S: Side> Work<S> {
    pub fn ready(&self) -> S {
        let mut s = S::new(self.sectors);
        (self.setup)(&mut s);
        s
    }
    #[inline(never)]
    pub fn run(&self, s: &mut S) {
        (self.body)(s)
    }
}

fn work<S>(
    name: &'static str, chunks: u32, size: u32, ops: u32,
    setup: impl Fn(&mut S) + 'static, body: impl Fn(&mut S) + 'static,
) -> Work<S> {
    let sectors = 64 + (chunks * size) as usize;
    Work { name, ops, sectors, setup: Box::new(setup), body: Box::new(body) }
}

fn file(n: u32) -> String {
    format!("d/{n:04}")
}

/// `files` files of one chunk each.
fn filled<S: Side>(s: &mut S, size: u32, files: u32) {
    s.format(size, 1);
    for n in 0..files {
        s.create(&file(n), None);
    }
}

/// A piece of 4 KiB again and again.
fn bytes(n: usize) -> Vec<u8> {
    let piece: Vec<u8> = (0..4096u32).map(|i| (i.wrapping_mul(2_654_435_761) >> 13) as u8).collect();
    let mut all = piece.repeat(n.div_ceil(4096));
    all.truncate(n);
    all
}

/// One file of `records` records, after seven files that are empty.
fn written<S: Side>(s: &mut S, records: usize) {
    filled(s, SIZE, 7);
    s.create("log", None);
    s.append(&bytes(486 * records));
}

/// Of the log's first chunk all but the first and the last record are lost.
fn lost<S: Side>(s: &mut S, how: fn(&mut [u8])) {
    written(s, 480);
    s.lose(1..63, how);
    s.reader("log");
}

fn holes<S: Side>(s: &mut S, times: u32) {
    for _ in 0..times {
        s.seek(1);
        assert_eq!(s.hole(), 62);
    }
}

fn create_and_delete<S: Side>(s: &mut S) {
    for n in 100..200 {
        s.create(&file(n), None);
        s.delete(&file(n));
    }
}

fn read_all<S: Side>(s: &mut S, records: u32) {
    s.reader("log");
    let mut n = 0;
    while s.next().is_some() {
        n += 1;
    }
    assert_eq!(n, records);
}

fn checksum<S: Side>(name: &'static str, n: usize, ops: u32, sum: fn(&mut S, &[u8])) -> Work<S> {
    let data = bytes(n);
    let body = move |s: &mut S| (0..ops).for_each(|_| sum(s, std::hint::black_box(&data)));
    work(name, 1, 1, ops, |_| {}, body)
}

/// Every workload of the table.
pub fn table<S: Side>() -> Vec<Work<S>> {
    let record = bytes(486);
    let (one, short, inside, brief) = (record.clone(), bytes(16), bytes(16), bytes(16));
    let many = bytes(64 * 486);
    let rolling = record.clone();
    vec![
        checksum("crc32 of 64 MiB", 64 * MIB, 1, S::crc32),
        checksum("crc32 of a sector", 512, 2000, S::crc32),
        checksum("crc32 of 64 MiB, both of 16", 64 * MIB, 1, S::crc32_of_16),
        checksum("crc32 of a sector, both of 16", 512, 2000, S::crc32_of_16),
        work("format", 128, SIZE, 200, |s: &mut S| s.format(SIZE, 1), |s: &mut S| (0..200).for_each(|n| s.format(SIZE, n))),
        work("mount", 128, SIZE, 500, |s: &mut S| filled(s, SIZE, 8), |s: &mut S| (0..500).for_each(|_| s.mount())),
        work("list of 64 files", 128, SIZE, 100, |s: &mut S| filled(s, SIZE, 64), |s: &mut S| {
            (0..100).for_each(|_| assert_eq!(s.list(""), 64));
        }),
        work("find the last of 64 files", 128, SIZE, 100, |s: &mut S| filled(s, SIZE, 64), |s: &mut S| {
            (0..100).for_each(|_| assert_eq!(s.find("d/0063"), 63));
        }),
        work("create and delete", 128, SIZE, 100, |s: &mut S| filled(s, SIZE, 32), create_and_delete),
        work("append a record a call", 128, SIZE, 1024, |s: &mut S| written(s, 0), move |s: &mut S| {
            (0..1024).for_each(|_| s.append(&one));
        }),
        work("append 64 records a call", 128, SIZE, 1024, |s: &mut S| written(s, 0), move |s: &mut S| {
            (0..16).for_each(|_| s.append(&many));
        }),
        work("append 16 bytes a call", 128, SIZE, 2048, |s: &mut S| written(s, 0), move |s: &mut S| {
            (0..2048).for_each(|_| s.append(&short));
        }),
        work("append 16 bytes, loop inside", 128, SIZE, 2048, |s: &mut S| written(s, 0), move |s: &mut S| {
            assert_eq!(s.append_times("log", &inside, 2048), 2048);
        }),
        work("append 16 bytes and sync", 128, SIZE, 512, |s: &mut S| written(s, 0), move |s: &mut S| {
            for _ in 0..512 {
                s.append(&brief);
                s.sync();
            }
        }),
        work("open_append, 32 records back", 128, SIZE, 100, |s: &mut S| written(s, 480), |s: &mut S| {
            (0..100).for_each(|_| s.open_append("log"));
        }),
        work("read a file, by record", 128, SIZE, 1024, |s: &mut S| written(s, 1024), |s: &mut S| read_all(s, 1024)),
        work("a hole of 62 erased sectors", 128, SIZE, 200, |s: &mut S| lost(s, |sector| sector.fill(0xff)), |s: &mut S| holes(s, 200)),
        work("a hole of 62 damaged records", 128, SIZE, 20, |s: &mut S| lost(s, |sector| sector[30] ^= 1), |s: &mut S| holes(s, 20)),
        work("seek to another chunk", 128, SIZE, 200, |s: &mut S| { written(s, 480); s.reader("log") }, |s: &mut S| {
            (0..200).for_each(|n| s.seek(n % 2 * 400));
        }),
        work("create, each rolls over", 128, SIZE, 100, |s: &mut S| filled(s, SIZE, 64), |s: &mut S| {
            (100..200).for_each(|n| s.create(&file(n), Some("d/")));
        }),
        work("append, each rolls over", 64, 1, 60, |s: &mut S| { filled(s, 1, 63); s.create("log", Some("d/")); s.append(&bytes(486)) }, move |s: &mut S| {
            (0..60).for_each(|_| s.append(&rolling));
        }),
        work("boundary: mount refused at once", 128, SIZE, 2000, |s: &mut S| filled(s, SIZE, 8), |s: &mut S| {
            (0..2000).for_each(|_| assert_eq!(s.mount_of(63), 2));
        }),
        work("boundary: append of no bytes", 128, SIZE, 2000, |s: &mut S| written(s, 0), |s: &mut S| {
            (0..2000).for_each(|_| s.append(&[]));
        }),
        work("boundary: no bytes, loop inside", 128, SIZE, 2000, |s: &mut S| written(s, 0), |s: &mut S| {
            assert_eq!(s.append_times("log", &[], 2000), 2000);
        }),
    ]
}

/// The same five at three sizes of the volume, 16, 128 and 2,048 chunks.
pub fn sizes<S: Side>() -> Vec<Work<S>> {
    const NAMES: [[&str; 3]; 5] = [
        ["mount, 16 chunks", "mount, 128 chunks", "mount, 2048 chunks"],
        ["list of 8 files, 16 chunks", "list of 8 files, 128 chunks", "list of 8 files, 2048 chunks"],
        ["append a record, 16 chunks", "append a record, 128 chunks", "append a record, 2048 chunks"],
        ["read a record, 16 chunks", "read a record, 128 chunks", "read a record, 2048 chunks"],
        ["create and delete, 16 chunks", "create and delete, 128 chunks", "create and delete, 2048 chunks"],
    ];
    let mut all = vec![];
    for (i, chunks) in [16, 128, 2048].into_iter().enumerate() {
        let record = bytes(486);
        all.push(work(NAMES[0][i], chunks, SIZE, 500, |s: &mut S| filled(s, SIZE, 8), |s: &mut S| (0..500).for_each(|_| s.mount())));
        all.push(work(NAMES[1][i], chunks, SIZE, 100, |s: &mut S| filled(s, SIZE, 8), |s: &mut S| {
            (0..100).for_each(|_| assert_eq!(s.list(""), 8));
        }));
        all.push(work(NAMES[2][i], chunks, SIZE, 512, |s: &mut S| written(s, 0), move |s: &mut S| (0..512).for_each(|_| s.append(&record))));
        all.push(work(NAMES[3][i], chunks, SIZE, 512, |s: &mut S| written(s, 512), |s: &mut S| read_all(s, 512)));
        all.push(work(NAMES[4][i], chunks, SIZE, 100, |s: &mut S| filled(s, SIZE, 8), create_and_delete));
    }
    all.sort_by_key(|w| NAMES.iter().position(|n| n.contains(&w.name)));
    all
}

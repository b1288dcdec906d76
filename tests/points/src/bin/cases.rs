//! The cases of S-1, each with the answer that 02's words give (cases.md has them as a table), run on the port and the
//! model side by side. Prints the table; `DIFFERS` marks a row that is answered otherwise.
//!   cases [--fault NAME]
use driver::hex;
use points::args::fault_of;
use points::model::{Item, MARKS, line};
use points::{Counts, Pair, said};
use port::Tally;

struct Desk<'a> {
    pair: Pair<'a>,
    rows: u32,
    bad: u32,
}

/// A payload's first bytes.
fn text(payload: &[u8]) -> String {
    String::from_utf8_lossy(&payload[..payload.len().min(12)]).replace('\t', "\\t").replace('\n', "\\n")
}

impl Desk<'_> {
    fn row(&mut self, key: &str, input: &str, want: &str, got: String) {
        self.rows += 1;
        self.bad += u32::from(want != got);
        let differs = if want == got { String::new() } else { format!(" DIFFERS: {got}") };
        println!("| {key} | {input} | {want}{differs} |");
    }

    /// A difference between port and model ends the program.
    fn same<T>(&self, what: &str, answer: Result<T, String>) -> T {
        answer.unwrap_or_else(|why| {
            println!("DIFFERS after row {}: {what}: {why}", self.rows);
            std::process::exit(1);
        })
    }

    fn say(&mut self, line: &str) -> String {
        let answer = self.pair.line(line);
        self.same(line, answer)
    }

    /// A line that must be accepted.
    fn accepted(&mut self, line: &str) {
        let answer = self.say(line);
        assert!(!answer.starts_with("no") && !answer.starts_with("--"), "{line}: {answer}");
    }

    fn volume(&mut self, sectors: u64, size: u32) {
        self.accepted(&format!("volume {sectors}"));
        self.accepted(&format!("format {size} 1"));
    }

    fn record(&mut self, bytes: &[u8]) {
        self.accepted(&format!("append {}", hex(bytes)));
        self.accepted("sync");
    }

    fn file(&mut self, name: &str, records: &[&[u8]]) {
        self.accepted(&format!("create {name} -"));
        records.iter().for_each(|r| self.record(r));
    }

    /// A store of 128 sectors, size 4: `a` (id 1) with records r0 r1 r2, `b` (id 2) with none.
    fn base(&mut self) {
        self.volume(128, 4);
        self.file("a", &[b"r0", b"r1", b"r2"]);
        self.accepted("create b -");
    }

    fn set(&mut self, point: &str, file: &str) -> String {
        let set = self.pair.set_point(point.as_bytes(), file.as_bytes());
        said(self.same(&format!("set {point} {file}"), set).map(|n| n.to_string()))
    }

    /// After a mount with every sector readable; the state stays as it was.
    fn mounted<T>(&mut self, look: impl FnOnce(&mut Self) -> T) -> T {
        ["save before", "setleft max", "unreadable none", "mount"].iter().for_each(|l| self.accepted(l));
        let found = look(self);
        self.accepted("load before");
        found
    }

    /// What a reader up to the point gives: `aa, bb, end`, holes as `from..to` and how many of their sectors are blank, if any.
    fn up(&mut self, point: &str) -> String {
        let read = self.mounted(|d| d.pair.read_up(point.as_bytes()));
        let items = match self.same(&format!("read {point}"), read) {
            Ok(items) => items,
            Err(n) => return format!("no {n}"),
        };
        let shown = items.iter().map(|i| match i {
            (Item::Payload(p), _) => text(p),
            (Item::Hole(a, b), 0) => format!("hole {a}..{b}"),
            (Item::Hole(a, b), n) => format!("hole {a}..{b} with {n} blank"),
            (Item::End, _) => unreachable!(),
        });
        shown.chain(["end".into()]).collect::<Vec<_>>().join(", ")
    }

    fn chunks(&mut self, name: &str) -> String {
        let rows = self.mounted(|d| d.say("list \"\""));
        rows.lines().find_map(|r| r.strip_prefix(&format!("{name} "))?.split(' ').nth(1).map(String::from)).unwrap_or("0".into())
    }

    fn damage(&mut self, sector: u64) {
        self.pair.play.session.st.m.volume[sector as usize * 512 + 40] ^= 1;
    }

    /// The appender in hand: id, tail, fill.
    fn tail(&self) -> String {
        let a = self.pair.st().app.as_ref().unwrap();
        let (kind, count) = a.x_tail();
        let count = if kind == 2 { String::new() } else { format!(" {count}") };
        format!("{} {}{count} fill {}", a.x_id(), ["at", "reopened", "closed"][kind as usize], a.x_fill())
    }
}

fn names(d: &mut Desk) {
    d.base();
    let got = d.set("p", "a");
    d.row("P1", "set `p` `a`", "ok 3", got);
    let first = d.mounted(|d| {
        d.accepted("reader MARKS");
        let next = d.say("next");
        text(&driver::unhex(next.rsplit(' ').next().unwrap()).unwrap())
    });
    let got = format!("{first} {}", d.chunks(MARKS));
    d.row("P2", "P1: MARKS' payload, chunks", "p\\t1\\t3\\n 1", got);
    let got = d.tail();
    d.row("P3", "P1: the appender: id, tail, fill", "3 at 1 fill 0", got);
    let got = d.up("p");
    d.row("P4", "P1, read up to `p`", "r0, r1, r2, end", got);
    d.accepted("open_append a -");
    d.record(b"r4");
    let got = d.up("p");
    d.row("P5", "P4, `a` opened and one record more (number 4), read up to `p`", "r0, r1, r2, end", got);
    let got = d.set("p2", "a");
    d.row("P6", "P5, set `p2` `a`", "ok 5", got);
    let got = d.up("p2");
    d.row("P7", "P6, read up to `p2`", "r0, r1, r2, r4, end", got);
    let got = d.set("q", "b");
    d.row("P8", "P7, set `q` `b` (no payload)", "ok 0", got);
    let got = d.up("q");
    d.row("P9", "P8, read up to `q`", "end", got);
    let got = d.set("p", "b");
    d.row("P10", "P8, set `p` `b`: the name is there", "no 14", got);
    let got = d.set("p", "none");
    d.row("P11", "P8, set `p` `none`: 14 before 9", "no 14", got);
    let got = d.set("z", "none");
    d.row("P12", "P8, set `z` `none`", "no 9", got);
    let got = d.up("z");
    d.row("P13", "P8, read up to `z`", "no 9", got);
    let got = d.set("m", MARKS);
    d.row("P14", "P8, set `m` `MARKS`: its lines so far stand at 0, 4 and 8", "ok 9", got);
    let got = d.up("m");
    d.row("P15", "P14, read up to `m`", "p\\t1\\t3\\n, p2\\t1\\t5\\n, q\\t2\\t0\\n, end", got);
    let got = d.chunks(MARKS);
    d.row("P16", "P14: MARKS' chunks: each setting opened it anew, and a chunk that was begun is not written further", "4", got);
    d.accepted("delete a");
    let got = d.up("p");
    d.row("P17", "P14, `a` deleted, read up to `p`", "no 15", got);
    d.accepted("create a -");
    let got = d.up("p");
    d.row("P18", "P17, `a` made anew (id 4), read up to `p`", "no 15", got);
    let got = d.set("p", "b");
    d.row("P19", "P17, set `p` `b`: the line still stands", "no 14", got);
    d.accepted("delete MARKS");
    let got = d.up("q");
    d.row("P20", "P17, MARKS deleted, read up to `q`", "no 9", got);
    d.base();
    let got = d.set("m", MARKS);
    d.row("P21", "set `m` `MARKS`, MARKS absent", "no 9", got);
    d.accepted("save base");
    for (k, p, f, want) in [
        ("P22", "", "a", "no 13"),
        ("P23", "0123456789abcdef", "a", "ok 3"),
        ("P24", "0123456789abcdefg", "a", "no 13"),
        ("P25", "a/b", "a", "no 13"),
        ("P26", "a b", "a", "no 13"),
        ("P27", "a/b", "x//y", "no 1"),
        ("P28", ".hidden", "a", "ok 3"),
        ("P29", "-._", "a", "ok 3"),
        ("P30", "é", "a", "no 13"),
    ] {
        d.accepted("load base");
        let got = d.set(p, f);
        d.row(k, &format!("set `{p}` `{f}`"), want, got);
    }
    d.accepted("load base");
    d.accepted("set store copy 2");
    let got = d.set("a/b", "x//y");
    d.row("P31", "set `a/b` `x//y`, store value with copy 2", "no 3", got);
    d.accepted("load base");
}

fn lines_by_hand(d: &mut Desk) {
    for (k, records, want) in [
        ("H1", vec!["p\t1\t2\n"], "r0, r1, end"),
        ("H2", vec!["p\t01\t2\n"], "no 9"),
        ("H3", vec!["p\t1\t02\n"], "no 9"),
        ("H4", vec!["p\t1\t0\n"], "end"),
        ("H5", vec!["p\t1\t00\n"], "no 9"),
        ("H6", vec!["p\t1\t4294967295\n"], "r0, r1, r2, end"),
        ("H7", vec!["p\t1\t4294967296\n"], "no 9"),
        ("H8", vec!["p\t4294967295\t1\n"], "no 15"),
        ("H9", vec!["p\t0\t1\n"], "no 15"),
        ("H10", vec!["p\t1\t2"], "no 9"),
        ("H11", vec!["p\t1\t2\r\n"], "no 9"),
        ("H12", vec!["p\t1\t2\n\n"], "no 9"),
        ("H13", vec!["x\t1\t1\np\t1\t2\n"], "no 9"),
        ("H14", vec!["p\t1", "\t2\n"], "no 9"),
        ("H15", vec!["p\t1\t2\n", "p\t1\t1\n"], "r0, r1, end"),
        ("H16", vec!["p\t1\t\n", "p\t-1\t2\n", "p\t+1\t2\n", "p \t1\t2\n", "p\t1\t2\t\n", "pp\t1\t2\n", "p\t1\t1\n"], "r0, end"),
        ("H17", vec!["p\t2\t7\n"], "end"),
    ] {
        d.accepted("load base");
        let bytes: Vec<&[u8]> = records.iter().map(|r| r.as_bytes()).collect();
        d.file(MARKS, &bytes);
        let got = d.up("p");
        d.row(k, &format!("MARKS by hand {records:?}, read up to `p`"), want, got);
    }
}

/// `a` with records r0 .. r6 in chunk 0, sectors 64 ..
fn seven(d: &mut Desk) {
    d.volume(128, 8);
    d.file("a", &[b"r0", b"r1", b"r2", b"r3", b"r4", b"r5", b"r6"]);
    d.accepted("save base");
}

fn holes(d: &mut Desk) {
    seven(d);
    for (k, at, limit, want) in [
        ("G1", vec![3u64, 4], 4, "r0, r1, r2, hole 3..4, end"),
        ("G2", vec![3, 4], 5, "r0, r1, r2, hole 3..5, end"),
        ("G3", vec![3, 4], 3, "r0, r1, r2, end"),
        ("G4", vec![3, 4], 6, "r0, r1, r2, hole 3..5, r5, end"),
        ("G5", vec![5, 6], 6, "r0, r1, r2, r3, r4, end"),
        ("G6", vec![0], 1, "hole 0..1, end"),
        ("G7", vec![0, 1, 2, 3, 4, 5, 6], 4, "end"),
    ] {
        d.accepted("load base");
        d.file(MARKS, &[&line(b"p", 1, limit)]);
        at.iter().for_each(|s| d.damage(64 + s));
        let got = d.up("p");
        d.row(k, &format!("`a` of 7 records, size 8, MARKS by hand `p` 1 {limit}; records {at:?} damaged; read up to `p`"), want, got);
    }
    d.volume(128, 4);
    d.file("a", &[b"r0", b"r1"]);
    d.accepted("open_append a -");
    d.record(b"r4");
    d.accepted("save base");
    for (k, limit, want) in [("G8", 3, "r0, r1, end"), ("G9", 4, "r0, r1, end"), ("G10", 5, "r0, r1, r4, end")] {
        d.accepted("load base");
        d.file(MARKS, &[&line(b"p", 1, limit)]);
        let got = d.up("p");
        d.row(k, &format!("`a`: chunk 0 partial with 2 records, r4 in chunk 1; MARKS by hand `p` 1 {limit}; read up to `p`"), want, got);
    }
}

/// S-4: a hole has the blank sectors of as much of it as is given.
fn blank_sectors(d: &mut Desk) {
    seven(d);
    for (k, limit, want) in [
        ("G17", 7, "r0, hole 1..5 with 2 blank, r5, r6, end"),
        ("G18", 5, "r0, hole 1..5 with 2 blank, end"),
        ("G19", 4, "r0, hole 1..4 with 1 blank, end"),
        ("G20", 2, "r0, hole 1..2 with 1 blank, end"),
        ("G21", 1, "r0, end"),
    ] {
        d.accepted("load base");
        d.file(MARKS, &[&line(b"p", 1, limit)]);
        ["fill 65 255", "fill 68 0"].iter().for_each(|l| d.accepted(l));
        [66, 67].iter().for_each(|s| d.damage(*s));
        let got = d.up("p");
        d.row(k, &format!("`a` of 7 records, size 8, MARKS by hand `p` 1 {limit}; record 1 erased, 2 and 3 damaged, 4 zeroed; read up to `p`"), want, got);
    }
    // records r0 .. r3 in chunk 0, r4 .. in chunk 1: the count is of the chunk that the reader enters
    d.volume(128, 4);
    d.file("a", &[b"r0", b"r1", b"r2", b"r3", b"r4", b"r5", b"r6", b"r7", b"r8"]);
    d.file(MARKS, &[&line(b"p", 1, 6)]);
    ["fill 68 255", "fill 70 0"].iter().for_each(|l| d.accepted(l));
    d.damage(69);
    let got = d.up("p");
    let input = "`a` of 9 records, size 4, MARKS by hand `p` 1 6; record 4 erased, 5 damaged, 6 zeroed; read up to `p`";
    d.row("G22", input, "r0, r1, r2, r3, hole 4..6 with 1 blank, end", got);
}

fn lost_lines(d: &mut Desk) {
    d.base();
    d.set("p", "a");
    d.set("q", "a");
    d.accepted("save base");
    d.damage(64 + 2 * 4);
    let got = d.up("p");
    d.row("G11", "P1, set `q` `a`, then the record of `p` damaged; read up to `p`", "no 9", got);
    let got = d.up("q");
    d.row("G12", "G11, read up to `q`", "r0, r1, r2, end", got);
    let got = d.set("p", "b");
    d.row("G13", "G11, set `p` `b`: the lost name may be set again", "ok 0", got);
    // the order of reads
    d.accepted("load base");
    d.accepted(&format!("unreadable {}", 64 + 2 * 4));
    let got = d.set("z", "none");
    d.row("G14", "P1, the sector of `p` unreadable, set `z` `none`", "no 4", got);
    d.accepted(&format!("unreadable {}", 64 + 3 * 4));
    let got = d.set("p", "none");
    let input = "P1, set `q` `a`, the sector of `q` unreadable, set `p` `none`: MARKS is read up to the first line with the name";
    d.row("G15", input, "no 14", got);
    d.accepted("unreadable 64");
    let got = d.set("z", "a");
    d.row("G16", "G15 with the sector of r0 unreadable, set `z` `a`", "no 4", got);
    d.accepted("unreadable none");
}

/// A file from before 02, S-5, which create and open_append refuse today.
fn dots(d: &mut Desk) {
    d.base();
    d.accepted("earlier create .old -");
    d.record(b"s0");
    let got = d.say("open_append .old -");
    d.row("N1", "`.old` (id 3) from before S-5 with record s0; open_append `.old`", "no 16", got);
    let got = d.set("p", ".old");
    d.row("N2", "N1, set `p` `.old`", "ok 1", got);
    let got = d.up("p");
    d.row("N3", "N2, read up to `p`", "s0, end", got);
    d.accepted("delete .old");
    let got = d.up("p");
    d.row("N4", "N2, `.old` deleted, read up to `p`", "no 15", got);
}

fn stops(d: &mut Desk) {
    for (k, marks, want) in [("S1", 0, "5"), ("S2", 1, "5"), ("S3", 2, "4")] {
        d.base();
        (0..marks).for_each(|o| drop(d.set(&format!("o{o}"), "b")));
        d.accepted("save base");
        let input = format!(
            "set `p` `a` after {marks} points, with 0, 1, 2, .. writes left: the fewest with which it is accepted; with each fewer it gives `no 4`, \
             and after a mount reading up to `p` gives `no 9`"
        );
        let fewest = (0..99).find(|n| {
            d.accepted("load base");
            d.accepted(&format!("setleft {n}"));
            let set = (d.set("p", "a"), d.up("p"));
            set != ("no 4".into(), "no 9".into())
        });
        let got = fewest.map_or("none".into(), |n| n.to_string());
        d.row(k, &input, want, got);
    }
    d.accepted("setleft max");
}

fn full(d: &mut Desk) {
    d.volume(128, 4);
    d.file("a", &[b"r0"]);
    let mut n = 0;
    let last = loop {
        let got = d.set(&format!("p{n}"), "a");
        if got != "ok 1" {
            break got;
        }
        n += 1;
    };
    let input = "128 sectors, size 4 (16 chunks), `a` with one record; points set one after the other: how many, and the next";
    d.row("F1", input, "15, no 10", format!("{n}, {last}"));
    let got = d.tail();
    d.row("F2", "F1: the appender handed back with the 10: id, tail, fill", "2 closed fill 8", got);
    d.volume(64 + 128, 1);
    (0..64).for_each(|k| d.accepted(&format!("create f{k} -")));
    let writer = d.pair.st().store.unwrap().x_writer();
    let got = d.set("p", "f0");
    let stays = d.pair.st().store.unwrap().x_writer() == writer;
    d.row("F3", "64 files, chunks free, MARKS absent; set `p` `f0`; the writer stays", "no 10 true", format!("{got} {stays}"));
}

fn older_stores(d: &mut Desk) {
    d.base();
    ["save old", "create c -", "load old store"].iter().for_each(|l| d.accepted(l));
    let got = d.set("p", "a");
    d.row("F4", "a store value older than the last create, MARKS absent; set `p` `a`", "no 11", got);
    d.base();
    ["create MARKS -", "save old", "create c -", "load old store"].iter().for_each(|l| d.accepted(l));
    let got = d.set("p", "a");
    d.row("F5", "the same with MARKS there, empty: nothing is committed, and the line is written", "ok 3", got);
    let got = d.up("p");
    d.row("F6", "F5, mounted, read up to `p`", "r0, r1, r2, end", got);
}

/// By hand: the entry of a slot gets another id, and the store is mounted anew.
fn give_id(d: &mut Desk, slot: u64, id: u8) {
    let copy = d.pair.st().store.unwrap().x_copy();
    d.accepted(&format!("poke {} {} {id:02x}000000", 32 * copy + 1, 64 * slot + 40));
    d.accepted(&format!("bodycrc {copy} 0"));
    d.accepted("mount");
}

/// Words of 02 that no case above stands for: the lowest slot, and tests before any read.
fn slots_and_reads(d: &mut Desk) {
    d.base();
    d.file(MARKS, &[&line(b"p", 1, 2)]);
    give_id(d, 1, 1);
    let got = d.up("p");
    d.row("T1", "MARKS by hand `p` 1 2; the entry of `b`, slot 1, has the id 1 too; read up to `p`: the lowest slot", "r0, r1, end", got);
    d.base();
    d.accepted("append 7330");
    d.accepted("sync");
    d.file(MARKS, &[&line(b"p", 2, 9)]);
    let got = d.up("p");
    d.row("T2", "`b` with a record s0, MARKS by hand `p` 2 9; read up to `p`", "s0, end", got);
    give_id(d, 0, 2);
    let got = d.up("p");
    d.row("T3", "T2, the entry of `a`, slot 0, has the id 2 too; read up to `p`: slot 0, whose records are of file 1", "end", got);
    d.base();
    let copy = d.pair.st().store.unwrap().x_copy();
    d.accepted(&format!("unreadable {}", 32 * copy + 1));
    for (k, line, want) in [
        ("T4", "set_point a/b a", "no 13"),
        ("T5", "set_point p x//y", "no 1"),
        ("T6", "read_point a/b", "no 13"),
        ("T7", "set_point p a", "no 4"),
        ("T8", "read_point p", "no 4"),
    ] {
        let got = d.say(line);
        d.row(k, &format!("the first directory sector unreadable: `{line}`"), want, got);
    }
    d.accepted("unreadable none");
}

fn main() {
    port::quiet();
    let fault = fault_of(&mut std::env::args().skip(1).collect());
    let (mut tally, mut counts) = (Tally::default(), Counts::default());
    let mut d = Desk { pair: Pair::new(&mut tally, &mut counts, fault), rows: 0, bad: 0 };
    println!("| case | input | answer |\n|---|---|---|");
    names(&mut d);
    lines_by_hand(&mut d);
    holes(&mut d);
    lost_lines(&mut d);
    blank_sectors(&mut d);
    dots(&mut d);
    stops(&mut d);
    full(&mut d);
    older_stores(&mut d);
    slots_and_reads(&mut d);
    eprintln!("{} rows, {} differ, {} calls on both", d.rows, d.bad, d.pair.calls());
    std::process::exit((d.bad > 0) as i32);
}

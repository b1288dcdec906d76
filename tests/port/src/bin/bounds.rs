//! Histories that reach what each call may write and read:
//!   bounds                                 runs them
//!   bounds --shift writes|reads ROW BY     the same with another bound: it must fail
//!   bounds rows                            prints what can be shifted
//! Both sides run them. Every call is held to the law of its writes (the port's) and to the formula of its reads (the
//! Rust's); the calls that are to reach both must do so exactly. README.md has the table.
use driver::script::words;
use driver::{Sector, Store, hex};
use port::writes::{Asked, Shift, most, shifted};
use port::{Play, Tally, firmware};
use std::cmp::Ordering;
use std::collections::BTreeSet;

/// Directory sectors.
const D: u64 = 8;
/// T and sectors of a chunk.
const GEOMETRIES: [(u64, u64); 6] = [(1, 1), (2, 1), (3, 1), (16, 1), (1, 4), (3, 4)];
/// What must be reached for each of them.
const ROWS: [&str; 21] = [
    "format", "mount", "find", "list", "reader", "open_append", "next", "seek", "record", "delete", "delete_oldest",
    "create", "create, rollover", "append, one record", "append, one record, rollover", "sync", "sync, rollover", "append, no record",
    "sync, nothing unwritten", "append, in its chunk", "sync, in its chunk",
];

/// The sectors that a call reads at most where no volume is forged. Of several records there is none.
fn reads(row: &str, t: u64, c: u64) -> Option<u64> {
    Some(match row {
        "mount" | "format" => 2,
        "find" => D,
        "list" | "reader" => D + t,
        "open_append" => D + t + c,
        "delete" | "delete_oldest" => 2 * D + t + 2,
        "create" => 2 * D + 2 * t + 2,
        "create, rollover" => 4 * D + 4 * t + 6,
        "append, one record" | "sync" => D + 2 * t + 2,
        "append, one record, rollover" | "sync, rollover" => 2 * D + 4 * t + 5,
        "next" => t + c,
        "seek" => t,
        "append, more" | "append, more, rollover" => return None,
        _ => 0,
    })
}

/// A history as it runs on both.
struct Run<'a> {
    play: Play<'a>,
    t: u64,
    c: u64,
    /// Of reads; that of writes is in the tally.
    shift: &'a Shift,
    reached: BTreeSet<&'static str>,
}

type Done = Result<(), String>;

impl Run<'_> {
    fn chunks(&self) -> u64 {
        128 * self.t
    }

    /// Runs a line, whose answer begins so. The last call, its writes and its reads.
    fn say(&mut self, line: &str, answer: &str) -> Result<(Asked, u64, u64), String> {
        let at = |why: String| format!("{why}\nT {}, {} sectors a chunk, at: {line}", self.t, self.c);
        self.play.last = None;
        let text = self.play.line(line).map_err(at)?;
        if !text.starts_with(answer) {
            return Err(at(format!("expected {answer}, answered {text}")));
        }
        let (asked, spent) = self.play.last.ok_or_else(|| at("no call".into()))?;
        Ok((asked, spent, self.play.session.st.m.reads))
    }

    /// The reads that a call may make, and that one of them is to reach.
    fn formula(&self, row: &str) -> i64 {
        reads(row, self.t, self.c).map_or(i64::MAX, |n| shifted(self.shift, row, n))
    }

    /// A call with this answer, held to its formula.
    fn answers(&mut self, line: &str, answer: &str) -> Result<(Asked, u64, u64), String> {
        let told = self.say(line, answer)?;
        let most = self.formula(told.0.row());
        if told.2 as i64 > most {
            self.exactly(told.0.row(), "reads", told.2, most)?;
        }
        Ok(told)
    }

    fn ok(&mut self, line: &str) -> Done {
        self.answers(line, "ok").map(|_| ())
    }

    /// An accepted call that reaches its law and its formula.
    fn reach(&mut self, line: &str) -> Done {
        let (asked, spent, reads) = self.answers(line, "ok")?;
        let (row, bound) = (asked.row(), self.play.tally.writes.bound(&asked));
        self.exactly(row, "writes", spent, bound)?;
        self.exactly(row, "reads", reads, self.formula(row))?;
        self.reached.insert(row);
        Ok(())
    }

    fn exactly(&self, row: &str, what: &str, seen: u64, bound: i64) -> Done {
        let wrong = match (seen as i64).cmp(&bound) {
            Ordering::Equal => return Ok(()),
            Ordering::Greater => "ABOVE",
            Ordering::Less => "NOT REACHED",
        };
        Err(format!("{wrong}: {row}: T {}, {} sectors a chunk: {seen} {what}, bound {bound}", self.t, self.c))
    }

    /// Runs a line that is no call.
    fn set(&mut self, line: &str) -> Done {
        self.play.line(line).map(|_| ())
    }

    /// A new store, and C's format of it.
    fn format(&mut self) -> Done {
        self.set(&format!("volume {}", 64 + self.chunks() * self.c))?;
        let line = format!("format {} 5", self.c);
        self.c_writes("store_format", &line)?;
        self.reach(&line)
    }

    /// A C call reaches the law of the line beside it.
    fn c_writes(&mut self, call: &str, line: &str) -> Done {
        let spent = firmware::spent(&mut self.play.session, line);
        let asked = Asked::new(&self.play.session, &words(line)).unwrap();
        self.exactly(call, "writes", spent, shifted(&self.play.tally.writes.shift, call, most(&asked)))
    }

    /// The other copy is lost: a delete of a file that is there stops after its first write. Handles stay as they are.
    fn lose(&mut self, file: &str) -> Done {
        self.set("setleft 1")?;
        self.answers(&format!("delete {file}"), "no 4")?;
        self.set("setleft max")
    }

    /// Bytes for so many records.
    fn append(&self, records: u64) -> String {
        format!("appendn {}", 486 * records)
    }
}

/// No chunk is free, the oldest file has links in all table sectors, and the new one goes to another directory sector.
fn create_rolls(run: &mut Run) -> Done {
    run.format()?;
    for k in 0..20 {
        run.ok(&format!("create f{k} -"))?;
    }
    run.ok("create big -")?;
    run.ok(&run.append((run.chunks() - 20) * run.c))?;
    for k in 0..20 {
        run.ok(&format!("delete f{k}"))?;
    }
    for k in 0..20 {
        run.ok(&format!("create g{k} -"))?;
    }
    // slot 0 is free, its chunk goes to the last file
    run.ok("delete g0")?;
    run.ok("open_append g19 -")?;
    run.ok(&run.append(run.c + 1))?;
    run.lose("g1")?;
    run.reach("create new \"\"")
}

/// The same for an append and a sync.
fn append_rolls(run: &mut Run) -> Done {
    run.format()?;
    run.ok("create big -")?;
    run.ok(&run.append((run.chunks() - 1) * run.c))?;
    run.ok("create last \"\"")?;
    run.ok(&run.append(run.c))?;
    run.lose("big")?;
    append_and_sync(run)
}

/// Records that fill the chunk, a record in it, then one that extends.
fn extends(run: &mut Run) -> Done {
    run.format()?;
    run.ok("create a -")?;
    run.set("save here")?;
    run.reach(&run.append(run.c))?;
    run.set("load here")?;
    run.ok("appendn 1")?;
    run.reach("sync")?;
    run.ok(&run.append(run.c - 1))?;
    run.lose("a")?;
    append_and_sync(run)
}

/// Both from the same state, a full chunk.
fn append_and_sync(run: &mut Run) -> Done {
    run.set("save full")?;
    run.reach("appendn 486")?;
    run.set("load full")?;
    run.reach("appendn 100")?;
    run.reach("sync")?;
    run.reach("sync") // nothing is unwritten now
}

/// All slots are taken.
fn directory(run: &mut Run) -> Done {
    run.format()?;
    for k in 0..64 {
        run.ok(&format!("create f{k} -"))?;
    }
    run.reach("find f63")?;
    run.reach("reader f63")?;
    run.reach("open_append f63 -")?;
    run.lose("f63")?;
    run.c_writes("store_delete", "delete f63")?;
    run.reach("delete f63")?;
    run.lose("f60")?;
    run.reach("create f63 -")?;
    run.lose("f60")?;
    run.reach("delete_oldest \"\"")?;
    run.reach("list \"\"")?;
    run.reach("mount")
}

/// The next that enters a last chunk without records: the extension is made, its record stopped.
fn reading(run: &mut Run) -> Done {
    run.format()?;
    run.ok("create a -")?;
    run.ok(&run.append(run.c))?;
    run.lose("a")?;
    run.set(&format!("setleft {}", run.t + 10))?;
    run.answers("appendn 486", "no 4")?;
    run.set("setleft max")?;
    run.ok("reader a")?;
    for _ in 0..run.c {
        run.answers("next", "ok payload 486")?;
    }
    run.reach("next")?;
    run.reach("seek 0")?;
    run.reach("record")
}

/// Chunks for several records in one append: `old` files of a chunk each, then one of `big` chunks, then the open one,
/// with or without a rollover. How many records, what was written, and the bound.
fn several(run: &mut Run, old: u64, big: u64, dir: &str, chunks: u64) -> Result<String, String> {
    run.format()?;
    for k in 0..old {
        run.ok(&format!("create f{k} -"))?;
    }
    if big > 0 {
        run.ok("create big -")?;
        run.ok(&run.append(big * run.c))?;
    }
    run.ok(&format!("create last {dir}"))?;
    run.ok(&run.append(run.c))?;
    run.lose("last")?;
    let (asked, spent, _) = run.answers(&run.append(chunks * run.c), "ok")?;
    Ok(format!("{} {spent}/{}", asked.records, run.play.tally.writes.bound(&asked)))
}

/// Without a rollover, over the edge of a table sector where there is one; with an old file that goes for each chunk; and
/// with a free chunk first, then a file that goes with links in all table sectors.
fn more(run: &mut Run) -> Result<String, String> {
    let (all, edge) = (run.chunks(), if run.t > 1 { 64 } else { 0 });
    let plain = [several(run, 62, edge, "-", 2)?, several(run, 62, edge, "-", 60)?];
    let rolling = [
        several(run, 62, all - 63, "\"\"", 2)?, several(run, 62, all - 63, "\"\"", 60)?, several(run, 0, all - 2, "\"\"", 2)?,
    ];
    Ok(format!("{}; rolling over {}", plain.join(", "), rolling.join(", ")))
}

/// Writes a table sector of the current copy, and lists its checksum.
fn forge(run: &mut Run, k: u64, links: impl Fn(&mut Sector, u32)) -> Done {
    let copy = run.play.session.st.store.as_ref().unwrap().x_copy();
    let mut sector: Sector = [0; 512];
    for chunk in 128 * k as u32..128 * (k as u32 + 1) {
        links(&mut sector, chunk);
    }
    run.set(&format!("poke {} 0 {}", copy * 32 + 9 + k, hex(&sector)))?;
    run.set(&format!("bodycrc {copy} {}", 8 + k))
}

/// On a volume that no history makes, a next above its formula: a file of all chunks, each but the last marked partial
/// with no record, is walked through in one call.
fn forged_next(run: &mut Run) -> Result<String, String> {
    run.format()?;
    run.ok("create a -")?;
    let last = run.chunks() as u32 - 1;
    for k in 0..run.t {
        forge(run, k, |s, chunk| Store::x_put_link(s, chunk, 0, chunk, (chunk < last).then_some(0)))?;
    }
    run.ok("mount")?;
    run.ok("reader a")?;
    let (_, _, reads) = run.say("next", "ok end")?;
    run.exactly("next, forged", "reads", reads, (u64::from(last) * run.t + run.c) as i64)?;
    Ok(format!("next {reads} reads"))
}

/// The same for create: the oldest file (slot 0) has no chunk, the second oldest (slot 8) all. Both are rolled over, then
/// it refuses. Its writes reach the law.
fn forged_create(run: &mut Run) -> Result<String, String> {
    run.format()?;
    for k in 0..9 {
        run.ok(&format!("create f{k} -"))?;
    }
    let copy = run.play.session.st.store.as_ref().unwrap().x_copy();
    for slot in 1..8u64 {
        run.set(&format!("poke {} {} {}", copy * 32 + 1, 64 * slot + 40, hex(&(100 + slot as u32).to_le_bytes())))?;
    }
    run.set(&format!("bodycrc {copy} 0"))?;
    for k in 0..run.t {
        forge(run, k, |s, chunk| Store::x_put_link(s, chunk, 8, chunk, None))?;
    }
    run.ok("mount")?;
    run.lose("f1")?;
    let (asked, writes, reads) = run.say("create new \"\"", "no 7")?;
    run.exactly("create, forged", "writes", writes, run.play.tally.writes.bound(&asked))?;
    run.exactly("create, forged", "reads", reads, (5 * D + 4 * run.t + 6) as i64)?;
    Ok(format!("create {reads} reads and {writes} writes"))
}

fn bounds(tally: &mut Tally, shift: &Shift) -> Done {
    for (t, c) in GEOMETRIES {
        let mut run = Run { play: Play::new(tally), t, c, shift, reached: BTreeSet::new() };
        for history in [create_rolls, append_rolls, extends, directory, reading] {
            history(&mut run)?;
        }
        if let Some(row) = ROWS.iter().find(|row| !run.reached.contains(*row)) {
            return Err(format!("NOT REACHED: {row}: T {t}, {c} sectors a chunk"));
        }
        println!("T {t}, {c} sectors a chunk: all rows reached; several records: {}", more(&mut run)?);
        println!("T {t}, {c} sectors a chunk, forged: {}, {}", forged_next(&mut run)?, forged_create(&mut run)?);
    }
    Ok(())
}

fn main() {
    port::quiet();
    let a: Vec<String> = std::env::args().skip(1).collect();
    let (mut tally, mut of_reads) = (Tally::default(), None);
    match &a[..] {
        [] => {}
        [rows] if rows == "rows" => {
            ROWS.iter().for_each(|row| println!("writes {row}\nreads {row}"));
            return println!("writes store_format\nwrites store_delete");
        }
        [shift, what, row, by] if shift == "--shift" => {
            let shift = Some((row.clone(), by.parse().expect("a number")));
            *(if what == "reads" { &mut of_reads } else { &mut tally.writes.shift }) = shift;
        }
        _ => panic!("bounds, bounds rows, or bounds --shift writes|reads ROW BY"),
    }
    if let Err(why) = bounds(&mut tally, &of_reads) {
        println!("{why}");
        std::process::exit(1);
    }
    println!("{}", tally.writes.show().join("\n"));
    println!("{} calls, {} rows reached for each of {} geometries, none above", tally.calls(), ROWS.len(), GEOMETRIES.len());
}

//! Records what the unchanged Rust answers where C firmware calls: `record SCRIPT.. >
//! recorded.txt`. A script is in the language of `oracle` (tests/oracle/README.md). Lines
//! of its own, below, are calls as 01's Hosts has them: the arguments are tested, then
//! the volume is mounted unless the call is format, and the medium's numbers are those
//! that the script has set.
//!
//!     c CALL          the call
//!     on_copy CALL    the call on a copy of the volume
//!     stops CALL      with 0, 1, 2, .. writes left, each on a copy and followed by a mount
//!                     and a list, until a write is to spare; the volume is then the last one
//!     sectors CALL    on a copy, with each sector of the metadata unreadable
//!
//! With `--reads` before a script, its lines `mount`, `list DIR` and `find NAME` are
//! recorded too, the last as a delete on a copy.
use driver::script::{Session, bytes_of, equal_generations, num, words};
use driver::{Dir, Error, Medium, Name, Sector, Store, hex, mount, number};
use std::fmt::Write as _;

const ROWS: usize = 3072;

/// What C lends: not zeros. tests/firmware/calls.c has the same bytes.
fn lent_rows(length: usize) -> Vec<u8> {
    (0..length).map(|i| (i * 167 + 13) as u8 | 1).collect()
}

/// FNV-1a of 64 bits. Not a CRC-32: that of a volume does not change with what stands in a
/// sector that ends in its own CRC-32.
fn sum(bytes: &[u8]) -> u64 {
    bytes.iter().fold(0xcbf29ce484222325, |h, b| (h ^ u64::from(*b)).wrapping_mul(0x100000001b3))
}

fn text(bytes: &[u8]) -> Result<String, Error> {
    String::from_utf8(bytes.to_vec()).map_err(|_| Error::Name)
}

/// The refusal, or 256 and the answer; and the rows, lent and given back.
fn call(m: &mut Medium, w: &[&str], rows: &mut [u8]) -> u32 {
    let sector: &mut Sector = &mut [0xa5; 512];
    let told = match w[0] {
        "mount" => mount(m, sector).map(|s| s.chunks()),
        // there S-7 has another copy written than the Rust: rules.c has it
        "format" if equal_generations(m) => panic!("a format at equal generations is not of the common domain"),
        "format" => match num(w[1]).unwrap() {
            size @ 1..=512 => Store::x_format(m, num(w[2]).unwrap(), size as u32, sector).map(|s| s.chunks()),
            _ => Err(Error::Range), // 01's test; the Rust has no such argument
        },
        "delete" => text(&bytes_of(w[1])).and_then(|t| {
            let name = Name::new(&t)?;
            mount(m, sector)?.delete(m, &name, sector).map(|()| 0)
        }),
        "list" if rows.len() < ROWS => Err(Error::Range), // as at format
        "list" => text(&bytes_of(w[1])).and_then(|t| {
            let dir = Dir::new(&t)?;
            let mut k = 0;
            mount(m, sector)?.list(m, &dir, sector, |e| {
                let row = &mut rows[48 * k..48 * k + 48];
                row[..40].copy_from_slice(&e.name.x_bytes());
                row[40..44].copy_from_slice(&e.id.to_le_bytes());
                row[44..].copy_from_slice(&e.chunks.to_le_bytes());
                k += 1;
            })?;
            Ok(k as u32)
        }),
        other => panic!("no call of C firmware: {other}"),
    };
    told.map_or_else(number, |n| 256 + n)
}

struct Record {
    out: String,
    /// The volume as the reader of the record has it.
    volume: Vec<u8>,
    calls: usize,
}

impl Record {
    /// Lines that make the reader's volume this one.
    fn reach(&mut self, volume: &[u8]) {
        if self.volume.len() != volume.len() {
            self.volume = vec![0; volume.len()];
            writeln!(self.out, "volume {}", volume.len()).unwrap();
        }
        let mut i = 0;
        while i < volume.len() {
            if self.volume[i] == volume[i] {
                i += 1;
                continue;
            }
            let same = volume[i..].iter().take_while(|b| **b == volume[i]).count();
            if same > 8 {
                writeln!(self.out, "fill {i} {same} {}", volume[i]).unwrap();
                i += same;
                continue;
            }
            // up to 8 bytes that need no change, or are all one byte, or the 64th
            let mut end = i;
            while end < volume.len() && end < i + 64 {
                let run = &volume[end..volume.len().min(end + 9)];
                if run.iter().all(|b| *b == run[0]) || run == &self.volume[end..end + run.len()] {
                    break;
                }
                end += 1;
            }
            let end = end.max(i + 1);
            writeln!(self.out, "at {i} {}", hex(&volume[i..end])).unwrap();
            i = end;
        }
        self.volume = volume.to_vec();
    }

    /// A call on a medium that the reader has reached: what C gives, what the Rust answers.
    fn call(&mut self, m: &mut Medium, w: &[&str]) -> u32 {
        self.reach(&m.volume);
        let left = m.left;
        let mut rows = lent_rows(w.get(2).filter(|_| w[0] == "list").map_or(ROWS + 40, |n| num(n).unwrap() as usize));
        let code = call(m, w, &mut rows);
        let argument = match w[0] {
            "format" => format!(" {} {}", num(w[1]).unwrap(), num(w[2]).unwrap()),
            "mount" => String::new(),
            _ => match hex(&bytes_of(w.get(1).copied().unwrap_or("\"\""))) {
                empty if empty.is_empty() => " -".into(),
                bytes => format!(" {bytes}"),
            },
        };
        let (lent, after) = match w[0] {
            "list" => (format!(" {}", rows.len()), format!(" {:016x}", sum(&rows))),
            _ => Default::default(),
        };
        let volume = sum(&m.volume);
        writeln!(self.out, "{} {left} {} {}{argument}{lent} : {code} {volume:016x}{after}", w[0], m.unreadable, m.entropy).unwrap();
        self.volume.clone_from(&m.volume);
        self.calls += 1;
        code
    }

    /// On a copy; both sides then go back.
    fn on_copy(&mut self, m: &Medium, w: &[&str], unreadable: u64) {
        let mut copy = m.clone();
        copy.unreadable = unreadable;
        self.reach(&m.volume);
        if w[0] == "mount" || w[0] == "list" {
            self.call(&mut copy, w);
            return;
        }
        self.out += "keep\n";
        self.call(&mut copy, w);
        self.out += "back\n";
        self.volume.clone_from(&m.volume);
    }

    fn stops(&mut self, m: &mut Medium, w: &[&str]) {
        self.reach(&m.volume);
        self.out += "keep\n";
        for n in 0.. {
            let mut copy = m.clone();
            copy.left = n;
            self.call(&mut copy, w);
            let spare = copy.left > 0;
            copy.left = u32::MAX;
            self.call(&mut copy, &["mount"]);
            self.call(&mut copy, &["list", "\"\""]);
            if spare {
                m.volume = copy.volume;
                return;
            }
            self.out += "back\n";
            self.volume.clone_from(&m.volume);
        }
    }

    fn line(&mut self, session: &mut Session, line: &str, reads: bool) {
        let w = words(line);
        let m = &mut session.st.m;
        let (left, unreadable) = (m.left, m.unreadable);
        match w.first().copied() {
            Some("c") => {
                self.call(m, &w[1..]);
                m.left = left; // C gives the numbers anew
            }
            Some("on_copy") => self.on_copy(m, &w[1..], unreadable),
            Some("stops") => self.stops(m, &w[1..]),
            Some("sectors") => {
                let sectors = m.sectors();
                for n in (0..12).chain(30..44).chain([63, 64, sectors - 1, sectors]) {
                    self.on_copy(m, &w[1..], n);
                }
            }
            Some("mount" | "list") if reads => {
                self.on_copy(m, &w, unreadable);
                session.line(line);
            }
            Some("find") if reads => self.on_copy(m, &["delete", w[1]], unreadable),
            _ => {
                if let Some(told) = session.line(line).filter(|t| t.starts_with("--") || t.starts_with("panic")) {
                    assert!(reads, "{line}: {told}");
                }
            }
        }
    }
}

fn main() {
    let mut record = Record { out: String::new(), volume: vec![], calls: 0 };
    let mut reads = false;
    for path in std::env::args().skip(1) {
        if path == "--reads" {
            reads = true;
            continue;
        }
        let mut session = Session::new(reads);
        for line in std::fs::read_to_string(&path).unwrap().lines() {
            record.line(&mut session, line, reads);
        }
        reads = false;
    }
    print!("{}end {}\n", record.out, record.calls);
}

//! The calls of C firmware (include/store.h, crates/firmware) beside the Rust's own: the
//! arguments are tested, then the volume is mounted unless the call is format, then the call.
use driver::script::{Lent, Session, bytes_of, num, words};
use driver::{Dir, Error, Name, number};

#[link(name = "firmware", kind = "static")]
unsafe extern "C" {
    fn store_mount(volume: *const u8, length: usize, left: u32, unreadable: u64, entropy: u64) -> u32;
    fn store_format(volume: *mut u8, length: usize, left: u32, unreadable: u64, entropy: u64, size: u32, seed: u64) -> u32;
    fn store_delete(
        volume: *mut u8, length: usize, left: u32, unreadable: u64, entropy: u64, name: *const u8, name_length: usize,
    ) -> u32;
    fn store_list(
        volume: *const u8, length: usize, left: u32, unreadable: u64, entropy: u64, dir: *const u8, dir_length: usize,
        rows: *mut u8, rows_length: usize,
    ) -> u32;
}

/// The C call beside a line, and the line that is the same call of the Rust after a mount: that of
/// the line, or a delete where a file is looked for.
fn beside(w: &[&str]) -> Option<(&'static str, String)> {
    let argument = w.get(1).copied().unwrap_or("\"\"");
    Some(match w[0] {
        "mount" => ("store_mount", "mount".into()),
        "format" => ("store_format", format!("format {} {}", num(w.get(1)?)?, num(w.get(2)?)?)),
        "delete" | "find" | "open_append" => ("store_delete", format!("delete {argument}")),
        "list" => ("store_list", format!("list {argument}")),
        _ => return None,
    })
}

/// The refusals of the arguments, which are before the mount: the rows (the port's own), the name.
fn arguments(call: &str, argument: &[u8], rows: usize) -> Result<(), Error> {
    let text = || std::str::from_utf8(argument).map_err(|_| Error::Name);
    match call {
        "store_list" if rows < 3072 => Err(Error::Range),
        "store_list" => Dir::new(text()?).map(|_| ()),
        "store_delete" => Name::new(text()?).map(|_| ()),
        _ => Ok(()),
    }
}

/// The number of an answer as `oracle` prints it; none of C's where the Rust panicked.
fn code(text: &str) -> u32 {
    let n = |t: &str| t.split_whitespace().next().and_then(|t| t.parse::<u32>().ok());
    match (text.strip_prefix("ok ").and_then(n), text.strip_prefix("no ").and_then(n)) {
        (Some(answer), _) => 256 + answer,
        (_, refusal) => refusal.unwrap_or(u32::MAX),
    }
}

/// The Rust on a copy of the volume, which is left in `on` with the rows.
fn rust(session: &Session, on: &mut Session, call: &str, line: &str, argument: &[u8]) -> u32 {
    let m = &session.st.m;
    let copy = &mut on.st.m;
    copy.volume.clone_from(&m.volume);
    (copy.left, copy.unreadable, copy.entropy) = (m.left, m.unreadable, m.entropy);
    // C lends rows alone; its counts are always 64
    (on.lent, on.st.store) = (Lent::new(64, session.lent.rows.len(), 0), None);
    let mut say = |line: &str| code(&on.line(line).unwrap_or_default());
    match (arguments(call, argument, session.lent.rows.len()), call) {
        (Err(e), _) => number(e),
        (_, "store_mount" | "store_format") => say(line),
        _ => match say("mount") {
            no @ ..256 => no,
            _ => say(line),
        },
    }
}

/// The C function on another copy, which is given back with the rows. Also the calls that only read get one.
fn c(session: &Session, call: &str, line: &str, argument: &[u8]) -> (u32, Vec<u8>, Vec<u8>) {
    let m = &session.st.m;
    let (mut volume, mut rows) = (m.volume.clone(), session.lent.anew().rows);
    let (at, length, text, n) = (volume.as_mut_ptr(), volume.len(), argument.as_ptr(), argument.len());
    let number = |i: usize| line.split(' ').nth(i).and_then(num).unwrap_or(0);
    // SAFETY: each pointer is that of a live slice of the length beside it.
    let code = unsafe {
        match call {
            "store_mount" => store_mount(at, length, m.left, m.unreadable, m.entropy),
            "store_format" => store_format(at, length, m.left, m.unreadable, m.entropy, number(1) as u32, number(2)),
            "store_delete" => store_delete(at, length, m.left, m.unreadable, m.entropy, text, n),
            _ => store_list(at, length, m.left, m.unreadable, m.entropy, text, n, rows.as_mut_ptr(), rows.len()),
        }
    };
    (code, volume, rows)
}

/// Puts the C call beside a line to both: its name and number, or what differs. `on` is a session
/// of the Rust for this alone.
pub fn ask(session: &Session, on: &mut Session, w: &[&str]) -> Option<Result<(&'static str, u32), String>> {
    let (call, line) = beside(w)?;
    let argument = bytes_of(w.get(1).copied().unwrap_or("\"\""));
    let told = rust(session, on, call, &line, &argument);
    let (given, volume, rows) = c(session, call, &line, &argument);
    let show = |what: String, a: String, b: String| Some(Err(format!("{call}, {what}\nthe Rust {a}\nC {b}")));
    if told != given {
        return show("number".into(), told.to_string(), given.to_string());
    }
    for (what, a, b) in [("volume", &on.st.m.volume, &volume), ("rows", &on.lent.rows, &rows)] {
        if a != b {
            let at = a.iter().zip(b).position(|(x, y)| x != y).unwrap_or(0);
            let of = |v: &[u8]| format!("{:02x?}", &v[at..v.len().min(at + 64)]);
            return show(format!("{what} from byte {at}"), of(a), of(b));
        }
    }
    Some(Ok((call, if given < 256 { given } else { 0 })))
}

/// The writes of a C call, which hands no medium record back: the fewest left with which number and
/// volume are those with all of them.
pub fn spent(session: &mut Session, line: &str) -> u64 {
    let w = words(line);
    let (call, line) = beside(&w).expect("a line with a C call beside it");
    let argument = bytes_of(w.get(1).copied().unwrap_or("\"\""));
    let before = session.st.m.left;
    let mut with = |left: u32| {
        session.st.m.left = left;
        let (code, volume, _) = c(session, call, &line, &argument);
        (code, volume)
    };
    let whole = with(u32::MAX);
    let least = (0..).find(|n| with(*n) == whole).unwrap();
    session.st.m.left = before;
    least.into()
}

//! Demand 3's reading: what a mount finds in a volume, by the port, held against the book.
use crate::world::{Next, Told, World, turn};
use driver::book::{Book, Call};

/// What was read back.
#[derive(Default)]
pub struct Held {
    pub checks: u64,
    pub files: u64,
    pub payloads: u64,
    pub most_files: usize,
}

/// The book's files of a directory, in any order.
pub fn same_rows(rows: &[(u32, String, u32)], book: &Book, dir: &str) -> Result<(), String> {
    let mut rows = rows.to_vec();
    let files = book.files.iter().filter(|f| f.name.starts_with(dir));
    let mut want: Vec<_> = files.map(|f| (f.id, f.name.clone(), f.chunks.len() as u32)).collect();
    rows.sort();
    want.sort();
    if rows == want { Ok(()) } else { Err(format!("listing {rows:?}, the book's {want:?}")) }
}

/// Demand 3, on a copy of the volume with every sector readable and no write left: a mount is accepted, the
/// root's listing shows the book's files, and each read from its start gives its payloads, no hole, then end.
pub fn holds(volume: &[u8], book: &Book, st: &mut Held) -> Result<(), String> {
    st.checks += 1;
    let mut w = World::new(volume.to_vec());
    let mut ask = |call: Call| w.run(&turn(call), 0);
    let refused = |what: &str, told: &Told| Err(format!("read back: {what} refused {}", told.refusal));
    let told = ask(Call::Mount);
    if !book.formatted {
        return if told.refusal == 5 { Ok(()) } else { Err(format!("mount {} before a format", told.refusal)) };
    }
    if told.refusal != 0 {
        return refused("mount", &told);
    }
    let told = ask(Call::List(String::new()));
    if told.refusal != 0 {
        return refused("list", &told);
    }
    same_rows(&told.rows, book, "").map_err(|why| format!("read back: {why}"))?;
    st.most_files = st.most_files.max(told.rows.len());
    for f in &book.files {
        let told = ask(Call::Reader(f.name.clone()));
        if told.refusal != 0 {
            return refused(&format!("reader of {}", f.name), &told);
        }
        for k in 0..=f.payloads.len() {
            let told = ask(Call::Next);
            let want = f.payloads.get(k).map_or(Next::End, |p| Next::Payload(p.clone()));
            if told.refusal != 0 || told.next.as_ref() != Some(&want) {
                let short = |n: Option<&Next>| format!("{n:?}").chars().take(60).collect::<String>();
                let got = if told.refusal == 0 { short(told.next.as_ref()) } else { format!("refusal {}", told.refusal) };
                return Err(format!("read back: {}, record {k} of {}: {got}, the book's {}", f.name, f.payloads.len(), short(Some(&want))));
            }
            st.payloads += u64::from(want != Next::End);
        }
        st.files += 1;
    }
    let header = [w.store[3], w.store[5], w.store[6]];
    if header != [book.next_id, book.total, book.size].map(u64::from) {
        return Err(format!("read back: next id, chunks and size {header:?}"));
    }
    if w.volume != volume { Err("read back: the volume changed".into()) } else { Ok(()) }
}

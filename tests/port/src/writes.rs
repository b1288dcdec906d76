//! What a call may write: the laws in one function, from their statements and not from the port's
//! code, and how near the calls came. T is the table sectors, chunks / 128 rounded up.
use crate::bridge::appended;
use driver::script::{Session, num};
use std::collections::BTreeMap;

/// What a call's law depends on, as it stands before the call.
#[derive(Clone, Copy)]
pub struct Asked {
    call: &'static str,
    /// T of the store value given; of format that of its geometry.
    pub tables: u64,
    rolls: bool,
    /// Those that the bytes of an append fill; of sync 1 where something is unwritten.
    pub records: u64,
    /// They all go into the appender's own chunk.
    here: bool,
}

/// The writes that a call may make at most, on any volume with any handle, stopped or not.
pub fn most(a: &Asked) -> u64 {
    let t = a.tables;
    match (a.call, a.rolls, a.records) {
        ("format" | "delete" | "delete_oldest", ..) => t + 10,
        ("create", false, _) => t + 10,
        ("create", true, _) => 2 * t + 14,
        ("sync" | "append", _, 0) => 0,
        ("sync" | "append", _, r) if a.here => r,
        ("sync", false, _) => t + 11,
        ("sync", true, _) => 2 * t + 14,
        ("append", false, r) => 8 + r * (t + 3),
        ("append", true, r) => 7 + r * (2 * t + 7),
        _ => 0, // those that only read, and open_append
    }
}

/// The calls with one law each, by the names of their rows.
const ONE: [&str; 12] =
    ["mount", "list", "find", "reader", "next", "seek", "record", "free_count", "open_append", "format", "delete", "delete_oldest"];

impl Asked {
    /// The call of a line, if it is one with a law and its handles are there.
    pub fn new(session: &Session, w: &[&str]) -> Option<Self> {
        let (st, n) = (&session.st, |i: usize| w.get(i).and_then(|w| num(w)).unwrap_or(0));
        let of_chunks = |chunks: u64| chunks.div_ceil(128);
        let tables = st.store.as_ref().map_or(0, |s| of_chunks(s.chunks().into()));
        let open = st.app.as_ref();
        let size = st.store.as_ref().map_or(0, |s| u64::from(s.chunk_sectors()));
        let room = open.map(|a| a.x_tail()).filter(|tail| tail.0 == 0).and_then(|tail| size.checked_sub(tail.1.into()));
        let asked = |call, tables, rolls, records| {
            Some(Asked { call, tables, rolls, records, here: room.is_some_and(|n| records <= n) })
        };
        let (fill, over) = (open.map_or(0, |a| a.x_fill() as u64), open.is_some_and(|a| a.x_rollover().is_some()));
        match w[0] {
            "append" | "appendn" => asked("append", tables, over, (fill + appended(w)?.len() as u64) / 486),
            "sync" => asked("sync", tables, over, u64::from(fill > 0)),
            "create" => asked("create", tables, w.get(2).is_some_and(|d| *d != "-"), 0),
            "format" => {
                let chunks = st.m.sectors().saturating_sub(64).checked_div(n(1)).unwrap_or(0).min(2048);
                asked("format", of_chunks(chunks), false, 0)
            }
            call => asked(ONE.iter().find(|r| **r == call)?, tables, false, 0),
        }
    }

    /// The law that it falls under, by name.
    pub fn row(&self) -> &'static str {
        match (self.call, self.rolls, self.records) {
            ("append", _, 0) => "append, no record",
            ("sync", _, 0) => "sync, nothing unwritten",
            ("append", ..) if self.here => "append, in its chunk",
            ("sync", ..) if self.here => "sync, in its chunk",
            ("append", false, 1) => "append, one record",
            ("append", true, 1) => "append, one record, rollover",
            ("append", false, _) => "append, more",
            ("append", true, _) => "append, more, rollover",
            ("sync", true, _) => "sync, rollover",
            ("create", true, _) => "create, rollover",
            (call, ..) => call,
        }
    }
}

/// A row and what is added to its bound, to see that a run fails with a wrong one.
pub type Shift = Option<(String, i64)>;

pub fn shifted(shift: &Shift, row: &str, bound: u64) -> i64 {
    bound as i64 + shift.as_ref().filter(|s| s.0 == row).map_or(0, |s| s.1)
}

/// How near the calls of each row came to their bound, by T: how many, and the writes and the bound
/// of the nearest.
#[derive(Default)]
pub struct Writes {
    rows: BTreeMap<(&'static str, u64), (u64, u64, u64)>,
    pub shift: Shift,
}

impl Writes {
    /// The bound of a call.
    pub fn bound(&self, asked: &Asked) -> i64 {
        shifted(&self.shift, asked.row(), most(asked))
    }

    /// Holds a call to its law; what is above it, in words.
    pub fn hold(&mut self, asked: &Asked, spent: u64) -> Result<(), String> {
        let (row, t, bound) = (asked.row(), asked.tables, self.bound(asked));
        if spent as i64 > bound {
            return Err(format!("ABOVE: {row}: T {t}: {spent} writes, bound {bound}"));
        }
        let seen = self.rows.entry((row, t)).or_insert((0, 0, u64::MAX));
        seen.0 += 1;
        if most(asked) - spent <= seen.2 - seen.1 {
            (seen.1, seen.2) = (spent, most(asked));
        }
        Ok(())
    }

    /// A line for each row: the calls, and for each T the writes of the nearest and its bound.
    pub fn show(&self) -> Vec<String> {
        let mut lines: BTreeMap<&str, (u64, String)> = BTreeMap::new();
        for ((row, t), (calls, spent, bound)) in &self.rows {
            let line = lines.entry(row).or_default();
            line.0 += calls;
            if *spent > 0 {
                line.1 += &format!(", T {t} {spent}/{bound}");
            }
        }
        lines.iter().map(|(row, (calls, text))| format!("writes of {row}: {calls} calls{text}")).collect()
    }
}

//! S-1 by 01's book: what a setting does to it, as the calls that it makes, and what a reader up to a point gives.
//! Made from the book's files, chunks and payloads; nothing here knows the model or a sector.
use crate::model::{Item, MARKS};
use driver::book::{Book, Call, File, Step};
use driver::hex;

pub fn file<'a>(book: &'a Book, name: &str) -> Option<&'a File> {
    book.files.iter().find(|f| f.name == name)
}

/// The id and number of a payload that is the line of this point: printed anew it is the same.
pub fn line_of(payload: &[u8], point: &str) -> Option<(u32, u32)> {
    let text = std::str::from_utf8(payload).ok()?;
    let fields: Vec<&str> = text.strip_suffix('\n')?.split('\t').collect();
    let [name, id, number] = fields[..] else { return None };
    let (id, number) = (id.parse::<u32>().ok()?, number.parse::<u32>().ok()?);
    (name == point && format!("{point}\t{id}\t{number}\n") == text).then_some((id, number))
}

/// The first line with the name in MARKS.
fn first_line(book: &Book, point: &str) -> Option<(u32, u32)> {
    file(book, MARKS)?.payloads.iter().find_map(|p| line_of(p, point))
}

/// The record number at which a reader of the file finds the end.
fn end_number(book: &Book, f: &File) -> u32 {
    (f.chunks.len() as u32 - 1) * book.size + f.chunks.last().unwrap()
}

/// A file's payloads whose record numbers are below a number.
fn below(book: &Book, f: &File, number: u32) -> Vec<Item> {
    let numbers = f.chunks.iter().enumerate().flat_map(|(k, held)| (0..*held).map(move |i| k as u32 * book.size + i));
    numbers.zip(&f.payloads).filter(|(n, _)| *n < number).map(|(_, p)| Item::Payload(p.clone())).collect()
}

/// What a reader up to a point gives, or why there is none. The name is one of a point.
pub fn reading(book: &Book, point: &str) -> Result<Vec<Item>, u32> {
    let (id, number) = first_line(book, point).ok_or(9u32)?;
    let f = book.files.iter().find(|f| f.id == id).ok_or(15u32)?;
    Ok(below(book, f, number))
}

fn point_name(point: &str) -> bool {
    (1..=16).contains(&point.len()) && point.bytes().all(|b| matches!(b, b'A'..=b'Z' | b'a'..=b'z' | b'0'..=b'9' | b'.' | b'_' | b'-'))
}

/// A setting as the book has it, with writes enough: the opening and its steps, the line, the steps of its sync, and the
/// refusal (0: none). Without an opening it is refused before it.
pub struct Setting {
    open: Option<Call>,
    opening: Vec<Step>,
    /// The opening is not refused.
    opens: bool,
    line: Vec<u8>,
    syncing: Vec<Step>,
    pub verdict: u32,
    pub number: u32,
}

impl Setting {
    pub fn plan(book: &Book, point: &str, name: &str) -> Self {
        let mut s = Setting { open: None, opening: vec![], opens: false, line: vec![], syncing: vec![], verdict: 0, number: 0 };
        let found = book.plan(&Call::Find(name.into())).1;
        s.verdict = match found {
            1 => 1,
            _ if !point_name(point) => 13,
            _ if first_line(book, point).is_some() => 14,
            other => other,
        };
        if s.verdict != 0 {
            return s;
        }
        let f = file(book, name).unwrap();
        s.number = end_number(book, f);
        s.line = format!("{point}\t{}\t{}\n", f.id, s.number).into_bytes();
        let absent = file(book, MARKS).is_none();
        let open = if absent { Call::Create(MARKS.into(), None) } else { Call::OpenAppend(MARKS.into(), None) };
        (s.opening, s.verdict) = book.plan(&open);
        s.opens = s.verdict == 0;
        if s.opens {
            let mut after = book.clone();
            s.opened(&open, &mut after);
            (s.syncing, s.verdict) = after.plan(&Call::Sync);
        }
        s.open = Some(open);
        s
    }

    /// MARKS opened, and the line appended: it is shorter than a record.
    fn opened(&self, open: &Call, book: &mut Book) {
        book.enter(open, &self.opening, self.opening.len(), 0);
        book.unwritten.clone_from(&self.line);
    }

    /// All steps.
    pub fn steps(&self) -> Vec<Step> {
        [&self.opening[..], &self.syncing].concat()
    }

    /// Whether MARKS is opened, when so many steps are made.
    pub fn opens(&self, done: usize) -> bool {
        self.opens && done >= self.opening.len()
    }

    /// The calls that it makes, as lines; none where it is refused before them.
    pub fn calls(&self) -> Vec<String> {
        let Some(open) = &self.open else { return vec![] };
        let open = if matches!(open, Call::Create(..)) { "create" } else { "open_append" };
        vec![format!("{open} {MARKS} -"), format!("append {}", hex(&self.line)), "sync".into()]
    }

    /// Entered in the book, when it made the first `done` steps and gave `refusal`.
    pub fn enter(&self, book: &mut Book, done: usize, opened: bool, refusal: u32) {
        let Some(open) = &self.open else { return };
        if opened {
            self.opened(open, book);
            book.enter(&Call::Sync, &self.syncing, done - self.opening.len(), refusal);
        } else {
            book.enter(open, &self.opening, done, refusal);
        }
    }
}

//! The functions of crates/bridge_points, and what crosses: numbers in the order that its src/lib.rt and
//! those of the crates bridge and bridge_write have.
use crate::model::{Item, Marked, Upto};
use driver::script::{Map, State};
use driver::{Medium, Reader, hole_blanks};
use port::bridge::{NO_APPENDER, Words, appender_words, map_of, medium_words, reader_words, store_row, store_words, ten_of};
use port::map::UNFIT;

#[link(name = "bridge_points", kind = "static")]
unsafe extern "C" {
    fn port_set_point(
        volume: *mut u8, length: usize, medium: &mut [u64; 4], store: &mut [u64; 43], crcs: &mut [u32; 24],
        point: *const u8, point_length: usize, name: *const u8, name_length: usize,
        answer: &mut [u64; 3], appender: &mut [u64; 10], buffer: &mut [u8; 486], over: &mut [u8; 40],
    ) -> u32;
    fn port_read_point(
        volume: *const u8, length: usize, medium: &mut [u64; 4], store: &[u64; 43], crcs: &[u32; 24],
        point: *const u8, point_length: usize, reader: &mut [u64; 10], limit: &mut [u64; 1],
    ) -> u32;
    fn port_upto_next(
        volume: *const u8, length: usize, medium: &mut [u64; 4], store: &[u64; 43], crcs: &[u32; 24],
        reader: &mut [u64; 10], limit: &mut [u64; 1], out: *mut u8, out_length: usize, answer: &mut [u64; 4],
    ) -> u32;
}

/// What a call gave back. What a call does not hand back is 0 or empty on both sides.
#[derive(Clone, PartialEq, Eq)]
pub struct Told {
    refusal: u32,
    /// Of a setting: the record number, and 1 where MARKS was opened. Of next: what it found, a hole with its blank sectors.
    answer: [u64; 4],
    medium: [u64; 4],
    store: ([u64; 10], [u32; 24]),
    /// Of a setting by the port; the model has none.
    pub map: Map,
    appender: Words,
    reader: [u64; 10],
    limit: u64,
    out: Vec<u8>,
}

impl Told {
    fn new(m: &Medium) -> Self {
        Told {
            refusal: 0,
            answer: [0; 4],
            medium: medium_words(m),
            store: Default::default(),
            map: UNFIT,
            appender: NO_APPENDER,
            reader: [0; 10],
            limit: 0,
            out: vec![],
        }
    }

    /// Of the model, after its setting.
    pub fn marked(st: &State, marked: &Marked) -> Self {
        let mut told = Told::new(&st.m);
        let opened = u64::from(marked.appender.is_some());
        (told.refusal, told.answer) = match marked.answer {
            Ok(record) => (0, [record.into(), opened, 0, 0]),
            Err(n) => (n, [0, opened, 0, 0]),
        };
        told.store = store_words(st.store.as_ref().unwrap());
        told.appender = marked.appender.as_ref().map_or(NO_APPENDER, |a| appender_words(a, ([0; 40], 0)));
        told
    }

    /// Of the model, after it was read up to a point. Refused, a reader of zeros.
    pub fn opened(st: &State, upto: &Result<Upto, u32>) -> Self {
        let mut told = Told::new(&st.m);
        match upto {
            Ok(u) => (told.reader, told.limit) = (reader_words(&u.reader), u.limit.into()),
            Err(n) => told.refusal = *n,
        }
        told
    }

    /// Of the model, after a next of a reader up to a point.
    pub fn gave(st: &State, upto: &Upto, item: &Result<Item, u32>, out: Vec<u8>) -> Self {
        let mut told = Told { reader: reader_words(&upto.reader), limit: upto.limit.into(), out, ..Told::new(&st.m) };
        match item {
            Ok(Item::Payload(p)) => told.answer = [1, p.len() as u64, 0, 0],
            Ok(Item::Hole(from, to)) => {
                let blank = hole_blanks(&st.m, st.store.as_ref().unwrap(), &upto.reader, *from, *to);
                told.answer = [2, (*from).into(), (*to).into(), blank];
            }
            Ok(Item::End) => {}
            Err(n) => told.refusal = *n,
        }
        told
    }

    /// Of next: the blank sectors of a hole.
    pub fn blank(&self) -> u64 {
        self.answer[3]
    }

    /// What differs, in words.
    pub fn differs(&self, port: &Told) -> Option<String> {
        let show = |what: &str, model: String, port: String| Some(format!("{what}\nthe model {model}\nthe port {port}"));
        if (self.refusal, self.answer) != (port.refusal, port.answer) {
            return show("refusal and answer", format!("{:?}", (self.refusal, self.answer)), format!("{:?}", (port.refusal, port.answer)));
        }
        for (what, a, b) in [
            ("medium", &self.medium[..], &port.medium[..]), ("store", &self.store.0, &port.store.0),
            ("appender", &self.appender.small, &port.appender.small), ("reader", &self.reader, &port.reader),
            ("limit", &[self.limit], &[port.limit]),
        ] {
            if a != b {
                return show(what, format!("{a:?}"), format!("{b:?}"));
            }
        }
        if self.store.1 != port.store.1 {
            return show("checksums", format!("{:x?}", self.store.1), format!("{:x?}", port.store.1));
        }
        for (what, a, b) in [
            ("appender's buffer", &self.appender.buffer[..], &port.appender.buffer[..]),
            ("appender's directory", &self.appender.dir, &port.appender.dir),
            ("output", &self.out, &port.out),
        ] {
            if a != b {
                let at = first(a, b);
                return show(&format!("{what}, from byte {at}"), format!("{:02x?}", &a[at..]), format!("{:02x?}", &b[at..]));
            }
        }
        None
    }
}

/// The first byte that differs.
pub fn first(a: &[u8], b: &[u8]) -> usize {
    a.iter().zip(b).position(|(x, y)| x != y).unwrap_or(a.len().min(b.len()))
}

/// Set a point by the port, on a copy of the volume, which comes back.
pub fn set_point(st: &State, point: &[u8], name: &[u8]) -> (Told, Vec<u8>) {
    let (mut told, mut volume) = (Told::new(&st.m), st.m.volume.clone());
    let (mut row, mut crcs) = store_row(st).unwrap();
    told.appender = Words { small: [u64::MAX; 10], buffer: [0xee; 486], dir: [0xee; 40] };
    let answer = &mut [u64::MAX; 3];
    let Words { small, buffer, dir } = &mut told.appender;
    // SAFETY: each pointer is that of a live slice of the length beside it.
    told.refusal = unsafe {
        port_set_point(
            volume.as_mut_ptr(), volume.len(), &mut told.medium, &mut row, &mut crcs,
            point.as_ptr(), point.len(), name.as_ptr(), name.len(), answer, small, buffer, dir,
        )
    };
    told.answer[..3].copy_from_slice(answer);
    (told.store, told.map) = ((ten_of(&row), crcs), map_of(&row));
    (told, volume)
}

/// Read up to a point by the port.
pub fn read_point(st: &State, point: &[u8]) -> Told {
    let mut told = Told { reader: [u64::MAX; 10], ..Told::new(&st.m) };
    let (store, crcs) = store_row(st).unwrap();
    let (v, limit) = (&st.m.volume, &mut [u64::MAX]);
    // SAFETY: as above.
    told.refusal = unsafe {
        port_read_point(v.as_ptr(), v.len(), &mut told.medium, &store, &crcs, point.as_ptr(), point.len(), &mut told.reader, limit)
    };
    told.limit = limit[0];
    told
}

/// The next of a reader up to a point by the port. `out`: what is lent.
pub fn upto_next(st: &State, reader: &Reader, limit: u32, out: Vec<u8>) -> Told {
    let mut told = Told { reader: reader_words(reader), answer: [u64::MAX; 4], out, ..Told::new(&st.m) };
    let (store, crcs) = store_row(st).unwrap();
    let (v, limit) = (&st.m.volume, &mut [limit.into()]);
    // SAFETY: as above.
    told.refusal = unsafe {
        port_upto_next(
            v.as_ptr(), v.len(), &mut told.medium, &store, &crcs, &mut told.reader, limit, told.out.as_mut_ptr(), told.out.len(),
            &mut told.answer,
        )
    };
    told.limit = limit[0];
    told
}

//! What stands between the exerciser and the port: nothing, or a fault that changes the writes of a call,
//! to see that the exerciser catches it.
use port::world::{Told, Turn, World};

#[derive(Clone, Copy, PartialEq, Eq)]
pub enum Fault {
    None,
    /// A commit does not zero the other header first.
    Zeroing,
    /// A commit or format writes its header before its body.
    Order,
    /// Of two records written one after the other, each goes where the other belongs.
    Swap,
    /// A call that is stopped after some writes makes one more.
    More,
}

pub const FAULTS: [(&str, Fault); 4] =
    [("zeroing", Fault::Zeroing), ("order", Fault::Order), ("swap", Fault::Swap), ("more", Fault::More)];

/// A sector and its bytes; none where the sector held them.
type Write = Option<(usize, Vec<u8>)>;

pub struct Shim {
    fault: Fault,
    writes: Vec<Write>,
}

pub fn sector(volume: &[u8], n: usize) -> &[u8] {
    &volume[512 * n..][..512]
}

/// The sectors that differ; the bytes past the last one count as a sector too.
pub fn changed(a: &[u8], b: &[u8]) -> Vec<usize> {
    (0..a.len().div_ceil(512)).filter(|n| a[512 * n..].chunks(512).next() != b[512 * n..].chunks(512).next()).collect()
}

/// A header that carries the magic.
pub fn is_whole_header(n: usize, bytes: &[u8]) -> bool {
    (n == 0 || n == 32) && bytes.starts_with(b"CYCLING-STORE\0\0\0")
}

impl Shim {
    pub fn new(fault: Fault) -> Self {
        Shim { fault, writes: vec![] }
    }

    /// Before the runs of a turn.
    pub fn begin(&mut self, before: &World, turn: &Turn) {
        self.writes.clear();
        if self.fault == Fault::None {
            return;
        }
        let mut held = before.volume.clone();
        for left in 1.. {
            let mut w = before.clone();
            w.run(turn, left);
            if w.medium[0] > 0 {
                break;
            }
            let at = changed(&held, &w.volume).first().copied();
            self.writes.push(at.map(|n| (n, sector(&w.volume, n).to_vec())));
            held = w.volume;
        }
        match self.fault {
            Fault::Zeroing => self.writes.iter_mut().for_each(|w| {
                w.take_if(|(n, bytes)| (*n == 0 || *n == 32) && bytes.iter().all(|b| *b == 0));
            }),
            Fault::Order => self.headers_first(),
            Fault::Swap => self.swap_records(),
            Fault::More | Fault::None => {}
        }
    }

    fn headers_first(&mut self) {
        for j in 0..self.writes.len() {
            let Some((n, bytes)) = &self.writes[j] else { continue };
            if is_whole_header(*n, bytes) {
                let first = self.writes[..j].iter().rposition(|w| w.as_ref().is_some_and(|w| w.0 == *n));
                self.writes[first.map_or(0, |i| i + 1)..=j].rotate_right(1);
            }
        }
    }

    fn swap_records(&mut self) {
        for j in 1..self.writes.len() {
            if let [Some((a, x)), Some((b, y))] = &mut self.writes[j - 1..=j] {
                if *a >= 64 && *b >= 64 {
                    std::mem::swap(x, y);
                }
            }
        }
    }

    pub fn run(&self, before: &World, turn: &Turn, left: u32) -> (World, Told) {
        let mut w = before.clone();
        let told = w.run(turn, left);
        if self.fault != Fault::None {
            let made = left as usize - w.medium[0] as usize;
            let more = usize::from(self.fault == Fault::More && made > 0);
            w.volume.clone_from(&before.volume);
            for (n, bytes) in self.writes.iter().take(made + more).flatten() {
                w.volume[512 * n..][..512].copy_from_slice(bytes);
            }
        }
        (w, told)
    }
}

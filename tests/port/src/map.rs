//! 02, S-3: what the map of free chunks must be, by the bytes of the table. The Rust has no map.
pub use driver::script::Map;
use driver::{Medium, Store, crc32};

pub const UNFIT: Map = [0; 33];

/// A fault: what happens to the map at a call, handed in, or handed back where the one given is beside it.
pub type Wrong = fn(&str, Option<&Map>, &mut Map);

/// The map in which the chunks are free that a test says.
pub fn of(free: impl Fn(usize) -> bool) -> Map {
    let mut map = UNFIT;
    map[0] = 1;
    (0..2048).filter(|c| free(*c)).for_each(|c| map[1 + c / 64] |= 1 << (c % 64));
    map
}

pub fn bit(map: &Map, c: usize) -> bool {
    map[1 + c / 64] >> (c % 64) & 1 == 1
}

/// Number 3: a bit at or past the chunks, or any in an unfit map.
pub fn bad(map: &Map, chunks: u64) -> bool {
    let kept = if map[0] == 0 { 0 } else { chunks };
    (0..32).any(|j| map[1 + j].checked_shr(kept.saturating_sub(64 * j as u64).min(64) as u32).unwrap_or(0) != 0)
}

/// The 4 bytes of a chunk's link in a copy's table.
pub fn link(volume: &[u8], copy: u64, c: usize) -> &[u8] {
    &volume[512 * (32 * copy as usize + 9) + 4 * c..][..4]
}

/// Bit c is set where the link of chunk c is zero.
pub fn of_bytes(volume: &[u8], copy: u64, chunks: u32) -> Map {
    of(|c| c < chunks as usize && link(volume, copy, c) == [0; 4])
}

/// Whether table sector `t` of the store's copy passes the checksum that the store value lists.
fn passes(volume: &[u8], s: &Store, t: usize) -> bool {
    crc32(&volume[512 * (32 * s.x_copy() as usize + 9 + t)..][..512]) == s.x_crcs()[8 + t]
}

/// The map after a commit: by the links of each table sector that passes; of another one the bits as they came, since no call looks at it.
pub fn committed(volume: &[u8], s: &Store, came: &Map) -> Map {
    let sectors: Vec<bool> = (0..s.chunks().div_ceil(128) as usize).map(|t| passes(volume, s, t)).collect();
    let table = of_bytes(volume, s.x_copy(), s.chunks());
    of(|c| c < s.chunks() as usize && bit(if sectors[c / 128] { &table } else { came }, c))
}

/// The map that an accepted mount fills in: the unfit one where a table sector fails, or a link.
pub fn mounted(m: &Medium, s: &Store) -> Map {
    let fits = |c: usize| {
        let l = link(&m.volume, s.x_copy(), c);
        let (owner, place) = (u16::from_le_bytes([l[0], l[1]]), u16::from_le_bytes([l[2], l[3]]));
        let (slot, records, partial) = (owner % 128, u32::from(owner / 128), place >= 0x8000);
        let linked = (1..=64).contains(&slot) && c < s.chunks() as usize && (partial || records == 0) && records < s.chunk_sectors();
        linked || owner == 0 && place == 0
    };
    let sectors = s.chunks().div_ceil(128) as usize;
    let read = |t: usize| m.unreadable != 32 * s.x_copy() + 9 + t as u64 && passes(&m.volume, s, t);
    if (0..sectors).all(read) && (0..128 * sectors).all(fits) { of_bytes(&m.volume, s.x_copy(), s.chunks()) } else { UNFIT }
}

pub fn show(map: &Map) -> String {
    format!("{}{:x?}", if map[0] == 0 { "unfit " } else { "" }, &map[1..])
}

//! Store values that no call of the port handed out, and mounts with a table sector that does not read: by the port alone, beside the table's bytes.
use crate::{CHUNKS, MANY, any_cursor};
use driver::book::Call;
use driver::crc32;
use port::bridge::map_of;
use port::make::Rng;
use port::map::{Map, UNFIT, bit, link, of, of_bytes, show};
use port::world::{Told, World, turn};

/// One volume, with a fault between the test and the port; what was seen is counted.
pub type Part = fn(&mut Rng, &str, &mut u64) -> Result<(), String>;

pub fn run(r: &mut Rng, many: u64, fault: &str, part: Part) -> Result<String, String> {
    let mut calls = 0;
    for k in 0..many {
        part(r, fault, &mut calls).map_err(|why| format!("volume {k}: {why}"))?;
    }
    Ok(format!("{many} volumes, {calls} calls, all as the table or the map has it"))
}

fn ask(w: &mut World, call: Call) -> Told {
    w.run(&turn(call), u32::MAX)
}

fn create(w: &mut World, name: &str) -> Told {
    ask(w, Call::Create(name.into(), None))
}

fn put(w: &mut World, map: &Map) {
    w.store[10..].copy_from_slice(map);
}

/// A store with some files and any cursor, mounted; it has a file h, with an appender and a reader.
fn made(r: &mut Rng) -> World {
    let (chunks, size) = (if r.one_in(12) { r.pick(&MANY) } else { r.pick(&CHUNKS) }, r.pick(&[1, 1, 2]));
    let mut w = World::new(vec![0; 512 * (64 + chunks * size) as usize]);
    ask(&mut w, Call::Format(size as u32, 1));
    create(&mut w, "h");
    for k in 0..r.below(12) {
        create(&mut w, &k.to_string());
        ask(&mut w, Call::Append(486 * r.below(8) as usize, k));
        if r.one_in(3) {
            let gone = r.below(k + 1);
            ask(&mut w, Call::Delete(gone.to_string()));
        }
    }
    let (at, cursor) = (512 * 32 * w.store[0] as usize, any_cursor(r, chunks) as u32);
    w.volume[at + 44..at + 48].copy_from_slice(&cursor.to_le_bytes());
    let crc = crc32(&w.volume[at..at + 508]);
    w.volume[at + 508..at + 512].copy_from_slice(&crc.to_le_bytes());
    for call in [Call::Mount, Call::OpenAppend("h".into(), None), Call::Append(5, 1), Call::Reader("h".into())] {
        assert_eq!(ask(&mut w, call).refusal, 0);
    }
    w
}

/// The first chunk that is free by a test, at or after the cursor, going round.
fn nearest(w: &World, free: impl Fn(usize) -> bool) -> Option<usize> {
    let n = w.store[5] as usize;
    (0..n).map(|k| (w.store[4] as usize + k) % n).find(|c| free(*c))
}

/// Random words, from dense to empty.
fn words(r: &mut Rng) -> Map {
    let thin = r.below(8);
    std::array::from_fn(|i| if i == 0 { 1 } else { (0..thin).fold(r.next(), |w, _| w & r.next()) })
}

/// Every call that takes a store value, but record, which has no test of it.
fn calls() -> [Call; 11] {
    let h = || "h".to_string();
    [
        Call::Create("zz".into(), None), Call::OpenAppend(h(), None), Call::Append(500, 2), Call::Sync, Call::Delete(h()), Call::DeleteOldest("".into()),
        Call::List("".into()), Call::Find(h()), Call::Reader(h()), Call::Next, Call::Seek(0),
    ]
}

/// A map that no call may accept: a bit at or past the chunks, or any in an unfit map.
fn refused(r: &mut Rng, w: &World, fault: &str, seen: &mut u64) -> Result<(), String> {
    let n = w.store[5] as usize;
    let mut map = words(r);
    if n < 2048 && r.one_in(2) {
        let any = n + r.below(2048 - n as u64) as usize;
        let past = r.pick(&[n, 2047, any]);
        map = of(|c| c < n && bit(&map, c) || c == past);
    } else {
        (map[0], map[1 + r.below(32) as usize]) = (0, 1 << r.below(64));
    }
    let mut given = w.clone();
    put(&mut given, &map);
    for call in calls().into_iter().map(Some).chain([None]) {
        let mut x = given.clone();
        match fault {
            "past-passes" => put(&mut x, &if map[0] == 1 { of(|c| c < n && bit(&map, c)) } else { map }),
            "unfit-passes" if map[0] == 0 => put(&mut x, &UNFIT),
            _ => {}
        }
        let no = match &call {
            Some(call) => ask(&mut x, call.clone()).refusal,
            None => x.free_count().0,
        };
        if fault == "moves" {
            x.store[32] ^= 1;
        }
        (x.medium[0], x.medium[1]) = (w.medium[0], w.medium[1]);
        *seen += 1;
        if no != 3 || x != given {
            return Err(format!("{n} chunks, {call:?}: refused {no}, moved {}, with the map {}", x != given, show(&map)));
        }
    }
    Ok(())
}

/// The world with any other map, and the map.
fn with_any(r: &mut Rng, w: &World) -> (World, Map) {
    let (n, mut x, any) = (w.store[5] as usize, w.clone(), words(r));
    let map = of(|c| c < n && bit(&any, c));
    put(&mut x, &map);
    // any number but 0 is a fit map's
    x.store[10] = r.pick(&[1, 2, u64::MAX]);
    (x, map)
}

/// Whether the appender's link stands at chunk `c` and no other link moved but the mark of `last`, and the map lost the bits of the links that were written.
fn took(w: &World, x: &World, map: &Map, c: usize, last: Option<usize>) -> bool {
    let moved = |d: usize| link(&x.volume, x.store[0], d) != link(&w.volume, w.store[0], d);
    let owner = u16::from_le_bytes(link(&x.volume, x.store[0], c)[..2].try_into().unwrap()) % 128;
    let others = (0..w.store[5] as usize).all(|d| d == c || Some(d) == last || !moved(d));
    let after = of(|d| bit(map, d) && d != c && !(Some(d) == last && moved(d)));
    u64::from(owner) == x.appender[1] + 1 && x.appender[3] == c as u64 && others && map_of(&x.store) == after
}

/// Any other map: the choice and the count are the map's, whatever the table has.
fn chosen(r: &mut Rng, w: &World, fault: &str, seen: &mut u64) -> Result<(), String> {
    let (cursor, (mut x, map)) = (w.store[4] as usize, with_any(r, w));
    let ones = (0..2048).filter(|c| bit(&map, *c)).count() as u64;
    let mut y = x.clone();
    match fault {
        "count-less" => put(&mut y, &of(|c| bit(&map, c) && c % 64 != 63)),
        "later" => put(&mut x, &of(|c| bit(&map, c) && c != cursor)),
        "not-round" => put(&mut x, &of(|c| bit(&map, c) && c >= cursor)),
        _ => {}
    }
    let (count, told) = (y.free_count(), create(&mut x, "zz"));
    *seen += 2;
    let fail = |what: String| Err(format!("{} chunks, cursor {cursor}: {what}, with the map {}", w.store[5], show(&map)));
    if count != (0, ones) {
        return fail(format!("free count {count:?}, the map has {ones}"));
    }
    let Some(c) = nearest(w, |c| bit(&map, c)) else {
        return if told.refusal == 10 && x.volume == w.volume { Ok(()) } else { fail(format!("no chunk is free, create {}", told.refusal)) };
    };
    if told.refusal != 0 || !took(w, &x, &map, c, None) {
        return fail(format!("create {}, chunk {}, the map's {c}; then {}", told.refusal, x.appender[3], show(&map_of(&x.store))));
    }
    Ok(())
}

/// The same of a file that is extended: records of h until a commit is made or refused.
fn extended(r: &mut Rng, w: &World, fault: &str, seen: &mut u64) -> Result<(), String> {
    let (cursor, last, (mut x, map)) = (w.store[4] as usize, w.appender[3] as usize, with_any(r, w));
    if fault == "extends-later" {
        put(&mut x, &of(|c| bit(&map, c) && c != cursor));
    }
    let mut no = 0;
    while no == 0 && x.store[2] == w.store[2] {
        no = ask(&mut x, Call::Append(486, 3)).refusal;
        *seen += 1;
    }
    let right = match nearest(w, |c| bit(&map, c)) {
        Some(c) => no == 0 && took(w, &x, &map, c, Some(last)),
        None => no == 10 && x.store[..10] == w.store[..10] && map_of(&x.store) == map,
    };
    let what = || format!("append {no}, from chunk {last} to {}; then {}", x.appender[3], show(&map_of(&x.store)));
    if right { Ok(()) } else { Err(format!("{} chunks, cursor {cursor}: {}, with the map {}", w.store[5], what(), show(&map))) }
}

pub fn forged(r: &mut Rng, fault: &str, seen: &mut u64) -> Result<(), String> {
    let w = made(r);
    (0..4).try_for_each(|_| refused(r, &w, fault, seen))?;
    (0..8).try_for_each(|_| chosen(r, &w, fault, seen))?;
    (0..4).try_for_each(|_| extended(r, &w, fault, seen))
}

/// Mount accepts, with the unfit map; the walk is used until the next mount, whose map is fit again.
pub fn unread(r: &mut Rng, fault: &str, seen: &mut u64) -> Result<(), String> {
    let mut w = made(r);
    let (n, base) = (w.store[5] as usize, 32 * w.store[0]);
    let mut mount = turn(Call::Mount);
    mount.op.unreadable = Some(base + 9 + r.below(n.div_ceil(128) as u64));
    let no = w.run(&mount, u32::MAX).refusal;
    if fault == "fit" {
        w.store[10] = 1;
    }
    if no != 0 || map_of(&w.store) != UNFIT {
        return Err(format!("{n} chunks, sector {:?}: mount {no}, the map {}", mount.op.unreadable, show(&map_of(&w.store))));
    }
    // readable again
    w.medium[1] = u64::MAX;
    for k in 0..5 {
        let free: Vec<bool> = (0..n).map(|c| link(&w.volume, w.store[0], c) == [0; 4]).collect();
        let (want, count) = (nearest(&w, |c| free[c]), w.free_count());
        if fault == "map-used" {
            put(&mut w, &of(|c| c + 1 == n));
        }
        let told = create(&mut w, &format!("zz{k}"));
        let took = (told.refusal == 0).then_some(w.appender[3] as usize);
        *seen += 2;
        if took != want || told.refusal != if want.is_some() { 0 } else { 10 } || map_of(&w.store) != UNFIT {
            return Err(format!("{n} chunks: create {}, chunk {took:?}, the walk's {want:?}; the map {}", told.refusal, show(&map_of(&w.store))));
        }
        if count != (0, free.iter().filter(|f| **f).count() as u64) {
            return Err(format!("{n} chunks: free count {count:?} by the walk"));
        }
    }
    let no = ask(&mut w, Call::Mount).refusal;
    if fault == "stays" {
        put(&mut w, &UNFIT);
    }
    let want = of_bytes(&w.volume, w.store[0], n as u32);
    if no != 0 || map_of(&w.store) != want {
        return Err(format!("{n} chunks: a fresh mount {no}, the map {}, the table {}", show(&map_of(&w.store)), show(&want)));
    }
    Ok(())
}

//! 02, S-4: files with damaged sectors, read by the Rust and the port; the blank sectors of each hole are counted in the volume.
//!   blank SEED VOLUMES [--fault NAME]
//! After the model that others made from 02's words: the data sectors held zeros, 255 or other bytes before; some are filled with 0, 255 or
//! another byte, some of these with one byte off, in some one bit is off. Each file is opened for appending and read, with
//! seeks, unreadable sectors and readers of other numbers. A fault is a wrong count, which must be caught.
use driver::{Medium, hole_blanks, hole_sectors};
use port::bridge::Count;
use port::make::Rng;
use port::{Play, Tally};

/// 1 if the first `bytes` bytes of a sector are all `byte`.
fn alike(m: &Medium, sector: u64, byte: u8, bytes: usize) -> u64 {
    u64::from(m.sector(sector)[..bytes].iter().all(|b| *b == byte))
}

const FAULTS: &[(&str, Count)] = &[
    ("zeros-only", |m, s, r, from, to| hole_sectors(s, r, from, to).map(|n| alike(m, n, 0, 512)).sum()),
    ("255-only", |m, s, r, from, to| hole_sectors(s, r, from, to).map(|n| alike(m, n, 255, 512)).sum()),
    ("last-byte", |m, s, r, from, to| hole_sectors(s, r, from, to).map(|n| alike(m, n, 0, 511) + alike(m, n, 255, 511)).sum()),
    ("one-more", |m, s, r, from, to| {
        let own = hole_sectors(s, r, from, to);
        (own.start..(own.end + 1).min(m.sectors())).map(|n| alike(m, n, 0, 512) + alike(m, n, 255, 512)).sum()
    }),
    ("one-fewer", |m, s, r, from, to| hole_blanks(m, s, r, from + 1, to)),
];

/// Data sectors overwritten.
fn damage(r: &mut Rng, play: &mut Play, sectors: u64) -> Result<(), String> {
    for _ in 0..r.below(20) {
        let (at, x, y) = (64 + r.below(sectors - 64), r.below(512), r.below(256));
        let fill = r.pick(&[0, 255, 0, 255, y]);
        if r.one_in(6) {
            let byte = play.session.st.m.sector(at)[x as usize] ^ 1 << r.below(8);
            play.line(&format!("poke {at} {x} {byte:02x}"))?;
            continue;
        }
        play.line(&format!("fill {at} {fill}"))?;
        if r.one_in(3) {
            let x = r.pick(&[x, 0, 511]);
            play.line(&format!("poke {at} {x} {y:02x}"))?;
        }
    }
    Ok(())
}

fn read(r: &mut Rng, play: &mut Play, name: &str, sectors: u64, size: u64) -> Result<(), String> {
    play.line(&format!("open_append {name} -"))?;
    if !play.line(&format!("reader {name}"))?.starts_with("ok") {
        return Ok(());
    }
    for _ in 0..120 {
        if r.one_in(12) {
            play.line(&format!("seek {}", r.below(60)))?;
        }
        if r.one_in(40) {
            let (field, value) = r.pick(&[("index", size), ("index", 0), ("end", size), ("position", 0), ("chunk", 0)]);
            play.line(&format!("set reader {field} {value}"))?;
        }
        let chunk = play.session.st.reader.as_ref().map_or(0, |r| u64::from(r.x_chunk()));
        let (near, any) = (64 + chunk * size + r.below(size), 64 + r.below(sectors - 64));
        let bad = if r.one_in(15) { r.pick(&[near, any]) } else { u64::MAX };
        play.line(&format!("unreadable {bad}"))?;
        let text = play.line("next")?;
        play.line("unreadable none")?;
        if text == "ok end" && r.one_in(3) {
            break;
        }
    }
    Ok(())
}

fn volume(r: &mut Rng, tally: &mut Tally, count: Count) -> Result<(), String> {
    let size = r.pick(&[1, 2, 3, 4, 8]);
    let sectors = 64 + size * r.pick(&[4, 12, 40]);
    let mut play = Play::new(tally);
    play.count = count;
    let before = r.pick(&["zero", "ff", "rand 5"]);
    play.line(&format!("volume {sectors} {before}"))?;
    play.line(&format!("format {size} {}", r.below(9)))?;
    let names = ["a", "b", "c"];
    for _ in 0..8 {
        let name = r.pick(&names);
        play.line(&format!("create {name} -"))?;
        play.line(&format!("open_append {name} -"))?;
        play.line(&format!("appendn {}", 486 * r.below(9) + 1))?;
        play.line("sync")?;
    }
    damage(r, &mut play, sectors)?;
    names.iter().try_for_each(|name| read(r, &mut play, name, sectors, size))
}

fn main() {
    port::quiet();
    let a: Vec<String> = std::env::args().skip(1).collect();
    let a: Vec<&str> = a.iter().map(String::as_str).collect();
    let (seed, many, count): (&str, &str, Count) = match a[..] {
        [seed, many] => (seed, many, hole_blanks),
        [seed, many, "--fault", name] => (seed, many, FAULTS.iter().find(|f| f.0 == name).expect("a fault").1),
        _ => panic!("blank SEED VOLUMES [--fault NAME]"),
    };
    let (seed, many): (u64, u64) = (seed.parse().expect("a number"), many.parse().expect("a number"));
    let (mut r, mut tally) = (Rng(seed), Tally::default());
    for k in 0..many {
        if let Err(why) = volume(&mut r, &mut tally, count) {
            println!("FAILURE: seed {seed}, volume {k}: {why}");
            std::process::exit(1);
        }
    }
    if !tally.holes.every() {
        println!("FAILURE: not every kind of hole was met: {}", tally.holes.show());
        std::process::exit(1);
    }
    println!("{}", tally.show());
    println!("seed {seed}: {many} volumes, {} calls, 0 differences", tally.calls());
}

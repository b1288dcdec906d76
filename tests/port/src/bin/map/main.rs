//! 02, S-3: the map of free chunks in the store value.
//!   map histories SEED HISTORIES [--fault NAME]   calls with stops and unreadable sectors, by the port and the Rust
//!   map forged SEED VOLUMES [--fault NAME]        store values with other maps, by the port
//!   map unread SEED VOLUMES [--fault NAME]        mounts with a table sector that does not read, by the port
//! What the map must be is told by the bytes of the table.
mod alone;
mod histories;
use port::make::Rng;

/// Chunks around the ends of words and of table sectors.
const CHUNKS: [u64; 14] = [1, 2, 3, 5, 20, 63, 64, 65, 127, 128, 129, 192, 193, 300];
const MANY: [u64; 4] = [1984, 1985, 2047, 2048];

/// A cursor, mostly near the end of a word or the last chunk.
fn any_cursor(r: &mut Rng, chunks: u64) -> u64 {
    let near = (64 * r.below(chunks / 64 + 1) + 4 * chunks - r.below(4)) % chunks;
    let any = r.below(chunks);
    r.pick(&[near, near, near, any])
}

fn main() {
    port::quiet();
    let a: Vec<String> = std::env::args().skip(1).collect();
    let a: Vec<&str> = a.iter().map(String::as_str).collect();
    let (part, seed, many, fault) = match a[..] {
        [part, seed, many] => (part, seed, many, ""),
        [part, seed, many, "--fault", name] => (part, seed, many, name),
        _ => panic!("map histories|forged|unread SEED COUNT [--fault NAME]"),
    };
    let (mut r, many) = (Rng(seed.parse().expect("a number")), many.parse().expect("a number"));
    let done = match part {
        "histories" => histories::run(&mut r, many, fault),
        "forged" => alone::run(&mut r, many, fault, alone::forged),
        "unread" => alone::run(&mut r, many, fault, alone::unread),
        _ => panic!("histories, forged or unread"),
    };
    match done {
        Ok(text) => println!("{text}"),
        Err(why) => {
            println!("FAILURE: {part}, seed {seed}, {why}");
            std::process::exit(1);
        }
    }
}

//! 01's "Hosts" line program over the unchanged Rust store.   hosts [rule3]
//! `rule3` applies 01's refusal 3 and 02's refusal 16 before the Rust is asked (default: the
//! Rust as it is, which says 11 there, and makes files with names that S-5 retires).
use driver::*;
use std::io::{BufRead, Write};

fn decimal(text: &[u8], max: u64) -> Option<u64> {
    if text.is_empty() || !text.iter().all(u8::is_ascii_digit) {
        return None;
    }
    let v: u64 = std::str::from_utf8(text).ok()?.parse().ok()?;
    (v <= max).then_some(v)
}

fn main() {
    let rule3 = std::env::args().any(|a| a == "rule3");
    let mut m = Medium::new(128 * 512);
    let (mut store, mut app): (Option<Store>, Option<Appender>) = (None, None);
    let sector: &mut Sector = &mut [0; 512];
    let out = &mut std::io::stdout().lock();
    let mut input = std::io::stdin().lock();
    let mut line = vec![];
    while { line.clear(); input.read_until(b'\n', &mut line).unwrap() > 0 } {
        if line.last() == Some(&b'\n') {
            line.pop();
        }
        m.left = u32::MAX; // "all writes allowed", for each line anew
        let f: Vec<&[u8]> = line.split(|b| *b == b'\t').collect();
        let text = |b: &[u8]| String::from_utf8_lossy(b).into_owned();
        let r: Result<(u64, String), u32> = (|| {
            if line.len() > 600 {
                return Err(2);
            }
            enum C { Format(u32, u64), Create(String, Option<String>), Append(Vec<u8>), Sync, Delete(String), List }
            let c = match (f[0], f.len()) {
                (b"format", 3) => C::Format(decimal(f[1], u32::MAX.into()).ok_or(2u32)? as u32, decimal(f[2], u64::MAX).ok_or(2u32)?),
                (b"create", 3) => C::Create(text(f[1]), (f[2] != b"-").then(|| text(f[2]))),
                (b"append", 2) => C::Append(f[1].to_vec()),
                (b"sync", 1) => C::Sync,
                (b"delete", 2) => C::Delete(text(f[1])),
                (b"list", 1) => C::List,
                _ => return Err(2),
            };
            if let C::Format(size, seed) = c {
                if !(1..=512).contains(&size) {
                    return Err(2);
                }
                let s = Store::x_format(&mut m, seed, size, sector).map_err(number)?;
                store = Some(s);
                return Ok((s.chunks().into(), String::new()));
            }
            let s = store.as_mut().ok_or(5u32)?;
            match c {
                C::Create(n, d) => {
                    let n = Name::new(&n).map_err(number)?;
                    let d = d.map(|d| Dir::new(&d)).transpose().map_err(number)?;
                    if rule3 && dotted(n.as_str().as_bytes()) {
                        return Err(16);
                    }
                    let a = s.create(&mut m, &n, d, sector).map_err(number)?;
                    let id = a.x_id();
                    app = Some(a);
                    Ok((id.into(), String::new()))
                }
                C::Append(b) => {
                    let a = app.as_mut().ok_or(11u32)?;
                    if rule3 && bad_appender(a, s) {
                        return Err(3);
                    }
                    a.append(s, &mut m, &b, sector).map_err(number)?;
                    Ok((a.room() as u64, String::new()))
                }
                C::Sync => {
                    let a = app.as_mut().ok_or(11u32)?;
                    if rule3 && bad_appender(a, s) {
                        return Err(3);
                    }
                    a.sync(s, &mut m, sector).map_err(number)?;
                    Ok((a.room() as u64, String::new()))
                }
                C::Delete(n) => {
                    let n = Name::new(&n).map_err(number)?;
                    s.delete(&mut m, &n, sector).map_err(number)?;
                    Ok((0, String::new()))
                }
                _ => {
                    let (mut k, mut rows) = (0, String::new());
                    s.list(&mut m, &Dir::ROOT, sector, |e| {
                        k += 1;
                        rows += &format!("{}\t{}\t{}\n", e.name.as_str(), e.id, e.chunks);
                    })
                    .map_err(number)?;
                    Ok((k, rows))
                }
            }
        })();
        match r {
            Ok((n, rows)) => write!(out, "ok\t{n}\n{rows}").unwrap(),
            Err(e) => writeln!(out, "no\t{e}").unwrap(),
        }
    }
}

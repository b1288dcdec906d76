//! Runs the workloads on the Rust and on the port. README.md says how; docs/BENCHMARKS.md what came out.
mod sides;
mod sixteen;
mod work;
use sides::{Port, Rust, Side};
use std::process::Command;
use work::Work;

fn all<S: Side>() -> Vec<Work<S>> {
    let mut all = work::table();
    all.extend(work::sizes());
    all
}

unsafe extern "C" {
    fn clock_gettime(clock: i32, time: &mut [i64; 2]) -> i32;
}

/// Nanoseconds that this thread has had a processor: what else runs on the machine is not counted.
fn spent() -> i64 {
    const THREAD: i32 = 3;
    let mut t = [0; 2];
    // SAFETY: on 64-bit Linux a timespec is two i64, seconds and nanoseconds.
    assert_eq!(unsafe { clock_gettime(THREAD, &mut t) }, 0);
    t[0] * 1_000_000_000 + t[1]
}

/// One run: nanoseconds of each operation, and what they left.
fn timed<S: Side>(w: &Work<S>) -> (f64, S) {
    let mut s = w.ready();
    let from = spent();
    w.run(&mut s);
    ((spent() - from) as f64 / f64::from(w.ops), s)
}

fn same(name: &str, rust: &Rust, port: &Port) {
    let equal = rust.volume() == port.volume() && rust.rows() == port.rows() && rust.out() == port.out();
    assert!(equal, "{name}: the port left other bytes than the Rust");
}

/// The least of the runs, and how far the middle one lies above it in hundredths.
fn least(mut runs: Vec<f64>) -> (f64, f64) {
    runs.sort_by(f64::total_cmp);
    (runs[0], 100.0 * (runs[runs.len() / 2] / runs[0] - 1.0))
}

/// The workloads `runs` times each, the two sides in turn.
fn time(runs: usize) {
    println!("{:34} {:>12} {:>12} {:>7}  {:>9} {:>9}", "", "Rust ns/op", "port ns/op", "ratio", "middle +%", "middle +%");
    for (r, p) in all::<Rust>().iter().zip(&all::<Port>()) {
        let (mut rust, mut port) = (vec![], vec![]);
        for n in 0..runs {
            // each goes first every other time
            let ((a, x), (b, y)) = if n % 2 == 0 {
                let first = timed(r);
                (first, timed(p))
            } else {
                let first = timed(p);
                (timed(r), first)
            };
            same(r.name, &x, &y);
            rust.push(a);
            port.push(b);
        }
        let ((a, da), (b, db)) = (least(rust), least(port));
        println!("{:34} {a:12.1} {b:12.1} {:7.2}  {da:9.0} {db:9.0}", r.name, b / a);
    }
}

/// Instructions that callgrind counts in a run of this program.
fn counted(side: &str, name: &str, part: &str) -> u64 {
    let me = std::env::current_exe().unwrap();
    let out = Command::new("valgrind")
        .args(["--tool=callgrind", "--callgrind-out-file=/dev/null"])
        .arg(me)
        .args(["one", side, name, part])
        .output()
        .expect("valgrind does not start: is it installed?");
    let said = String::from_utf8_lossy(&out.stderr);
    let total = said.lines().find_map(|l| l.split("Collected :").nth(1)).and_then(|n| n.trim().parse().ok());
    total.unwrap_or_else(|| panic!("callgrind counted nothing of {side}, {name}:\n{said}"))
}

/// Instructions of each workload that has `part` in its name: a run of it less a run of its setup.
fn count(part: &str) {
    println!("{:34} {:>14} {:>14} {:>7}", "", "Rust instr/op", "port instr/op", "ratio");
    for w in all::<Rust>().iter().filter(|w| w.name.contains(part)) {
        let of = |side| (counted(side, w.name, "whole") - counted(side, w.name, "setup")) as f64 / f64::from(w.ops);
        let (a, b) = (of("rust"), of("port"));
        println!("{:34} {a:14.1} {b:14.1} {:7.2}", w.name, b / a);
    }
}

/// For callgrind and perf: one workload on one side, `whole` or its `setup` alone.
fn one<S: Side>(name: &str, part: &str) {
    // made before the name is looked for, so that both parts cost the same up to the operations
    let all = all::<S>();
    let w = all.iter().find(|w| w.name == name).unwrap_or_else(|| panic!("no workload {name}"));
    let mut s = w.ready();
    if part == "whole" {
        w.run(&mut s);
    }
}

fn main() {
    let words: Vec<String> = std::env::args().skip(1).collect();
    let words: Vec<&str> = words.iter().map(String::as_str).collect();
    match words[..] {
        [] => time(15),
        ["smoke"] => time(1),
        ["count"] => count(""),
        ["count", part] => count(part),
        ["one", "rust", name, part] => one::<Rust>(name, part),
        ["one", "port", name, part] => one::<Port>(name, part),
        _ => {
            eprintln!("usage: bench [smoke | count [NAME] | one rust|port NAME whole|setup]");
            std::process::exit(2);
        }
    }
}

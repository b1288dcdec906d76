#!/usr/bin/env python3
"""Random line scripts, answered by the proved line program and by the Rust's.

    compare.py PORT RUST SEED SECONDS

PORT and RUST are commands, RUST with its arguments in one word. Script k of SEED is always the same one. The first script with a difference is
made smaller, line by line and byte by byte, as long as a difference is left, and printed with both answers; the status is then 1.
"""
import random
import shutil
import subprocess
import sys
import time

NAMES = [b"a", b"b", b"c", b"a/1", b"a/2", b"b/x", b"log/2024-01-01", b"x" * 40, b"A.z_0-9", b".a", b"a/.1", b"a./1"]
BAD_NAMES = [b"", b"/", b"a//b", b"a/", b"/a", b"/.a", b"x" * 41, b"a b", b"\xc3\xa9", b"\xff", b"a\r", b"\x00"]
DIRS = [b"-", b"-", b"-", b"", b"a/", b"b/", b"log/", b"none/", b".d/", b"x" * 39 + b"/"]
BAD_DIRS = [b"a", b"/", b"a//", b"x" * 40 + b"/", b"--", b"\xff/"]
SIZES = [b"1", b"2", b"3", b"4", b"4", b"8", b"16", b"21", b"32", b"64", b"007"]
BAD_SIZES = [b"0", b"65", b"512", b"513", b"4294967295", b"4294967296", b"", b"-1", b"+1", b"1x", b" 1", b"9" * 30]
SEEDS = [b"0", b"1", b"2", b"18446744073709551615", b"0000"]
BAD_SEEDS = [b"18446744073709551616", b"", b"-1", b"1 ", b"9" * 40]
JUNK = [b"", b"list ", b"LIST", b"sync\t", b"list\t", b"append", b"delete", b"create\ta", b"format\t4", b"append\ta\tb", b"mount", b"\r", b"\t", b"\t\t\t"]


def any_bytes(r, n):
    return bytes(b for b in r.randbytes(n) if b != 10)


def text(r):
    n = r.choice([0, 1, 2, 20, 484, 485, 486, 487, r.randrange(594), 592, 593])
    return r.choice([b"x" * n, any_bytes(r, n).replace(b"\t", b" ")])


def line(r, style):
    k = r.random()
    odd = r.random() < 0.06
    if odd:
        return r.choice([
            lambda: r.choice(JUNK),
            lambda: any_bytes(r, r.randrange(30)),
            lambda: any_bytes(r, r.choice([599, 600, 601, 602, 1300, 4096, 9000])),
            lambda: b"append\t" + b"y" * r.choice([592, 593, 594, 595, 5000]),
            lambda: b"format\t" + r.choice(BAD_SIZES) + b"\t" + r.choice(SEEDS),
            lambda: b"format\t" + r.choice(SIZES) + b"\t" + r.choice(BAD_SEEDS),
            lambda: b"create\t" + r.choice(BAD_NAMES) + b"\t" + r.choice(DIRS),
            lambda: b"create\t" + r.choice(NAMES) + b"\t" + r.choice(BAD_DIRS),
            lambda: b"delete\t" + r.choice(BAD_NAMES),
            lambda: b"list\r",
        ])()
    names = NAMES + style["names"]
    if k < style["format"]:
        return b"format\t" + r.choice(SIZES) + b"\t" + r.choice(SEEDS)
    k = r.random()
    if k < style["create"]:
        return b"create\t" + r.choice(names) + b"\t" + r.choice(DIRS if r.random() < 0.5 else [style["dir"]])
    if k < style["create"] + style["append"]:
        return b"append\t" + text(r)
    k = r.random()
    if k < 0.4:
        return b"sync"
    if k < 0.7:
        return b"delete\t" + r.choice(names)
    return b"list"


def script(seed, k):
    r = random.Random(f"{seed} {k}")
    style = r.choice([
        {"format": 0.03, "create": 0.3, "append": 0.35},
        {"format": 0.01, "create": 0.05, "append": 0.85},
        {"format": 0.005, "create": 0.8, "append": 0.1},
        {"format": 0.15, "create": 0.3, "append": 0.3},
    ])
    style["names"] = [b"f/%d" % i for i in range(r.choice([0, 4, 70]))]
    style["dir"] = r.choice([b"-", b"", b"f/", b"a/"])
    lines = [line(r, style) for _ in range(r.choice([5, 40, 150]))]
    if r.random() < 0.9:
        lines.insert(0, b"format\t" + r.choice(SIZES) + b"\t" + r.choice(SEEDS))
    return lines + [r.choice([b"", b"list", b"sync"])]  # the last one has no line feed


def answer(command, lines):
    p = subprocess.run(command, input=b"\n".join(lines), stdout=subprocess.PIPE, stderr=subprocess.STDOUT)
    return p.stdout if p.returncode == 0 else p.stdout + b"status %d\n" % p.returncode


def cut(parts, differs):
    """Without runs of its parts, the longest runs first, as long as the two differ."""
    n = max(1, len(parts) // 2)
    while n:
        i = 0
        while i < len(parts):
            less = parts[:i] + parts[i + n:]
            if differs(less):
                parts = less
            else:
                i += n
        n //= 2
    return parts


def smaller(lines, differs):
    """Fewer lines and shorter ones, until no cut leaves a difference."""
    while True:
        before = lines
        lines = cut(lines, differs)
        for i in range(len(lines)):
            put = lambda b: lines[:i] + [b] + lines[i + 1:]
            lines = put(cut(lines[i], lambda b: differs(put(b))))
        if lines == before:
            return lines


def main():
    try:
        port, rust, seed, seconds = sys.argv[1:]
        port, rust, seconds = port.split(), rust.split(), float(seconds)
    except ValueError:
        port = rust = []
    if not all(command and shutil.which(command[0]) for command in (port, rust)):
        print("usage: compare.py PORT RUST SEED SECONDS, where PORT and RUST are programs that are there", file=sys.stderr)
        sys.exit(2)
    end = time.monotonic() + seconds
    k, count, seen = 0, 0, {}
    while time.monotonic() < end:
        lines = script(seed, k)
        a, b = answer(port, lines), answer(rust, lines)
        if a != b:
            lines = smaller(lines, lambda ls: answer(port, ls) != answer(rust, ls))
            print(f"seed {seed}, script {k}; made smaller:")
            for ls in lines:
                print("   ", ls)
            print("the port:", answer(port, lines))
            print("the Rust:", answer(rust, lines))
            sys.exit(1)
        for row in b.split(b"\n"):
            if row[:3] in (b"ok\t", b"no\t") and (row[:2] == b"ok" or row not in seen):
                seen[row if row[:2] == b"no" else b"ok"] = True
        k += 1
        count += len(lines)
    numbers = " ".join(str(n) for n in sorted(int(x[3:]) for x in seen if x[:2] == b"no"))
    print(f"{k} scripts, {count} lines, 0 differences; refusals met: {numbers}")
    missing = [n for n in (1, 2, 3, 5, 8, 9, 10, 11, 16) if b"no\t%d" % n not in seen]
    if missing and seconds >= 5:
        print("never met:", missing)
        sys.exit(1)


main()

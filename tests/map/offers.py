#!/usr/bin/env python3
"""No call on offer has a condition that its caller must meet: no public function of the crates store and points, no function exported to C, and no public
method of a handle has a `requires`. Every one of them has an `ensures`."""
import glob
import re
import sys

HANDLES = {"handles": "Store", "append": "Appender", "reader": "(?:Reader|Upto)"}
START = re.compile(r"^(?P<indent> *)(?P<kind>pub |#\[unsafe\(no_mangle\)\]\n *pub extern \"C\" )fn (?P<name>\w+)(?P<contract>.*?)^(?P=indent)\{", re.M | re.S)


def offered(crate):
    """The contracts of what a crate offers, each with its name: all of its public functions, or of a handle's crate the public methods."""
    for path in sorted(glob.glob(f"crates/{crate}/src/*.rt")):
        text = open(path, encoding="utf-8").read()
        parts = re.findall(rf"^impl {HANDLES[crate]} \{{.*?^\}}", text, re.M | re.S) if crate in HANDLES else [text]
        for part in parts:
            yield from ((f"{crate}::{m['name']}", m["contract"]) for m in START.finditer(part))


calls = [call for crate in ["store", "points", "firmware", *HANDLES] for call in offered(crate)]
wrong = [name for name, contract in calls if "requires {" in contract or "ensures {" not in contract]
print(f"offers: {len(calls)} functions and methods on offer; {len(wrong)} with a condition, or without a promise")
for name in wrong:
    print("offers:", name)
sys.exit(1 if wrong or len(calls) < 20 else 0)

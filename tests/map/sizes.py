#!/usr/bin/env python3
"""What is written by hand can be read at a sitting: no function over 40 lines, its contract apart, no file of definitions or laws over 400, nor one of code; no line of
code or definitions over 160 characters, none of proofs over 240, and no attribute, which `rt fmt` lays out in one line, however many laws it names."""
import os
import re
import sys

sys.path.insert(0, os.path.join(os.path.dirname(os.path.abspath(__file__)), "..", "..", "docs"))
from sources import files

FUNCTION, FILE, LINE, PROOF_LINE = 40, 400, 160, 240


def functions(f):
    for k, line in enumerate(f.lines):
        if m := re.match(r'(\s*)(?:pub )?(?:extern "C" )?fn (\w+)', line):
            end = next(e for e in range(k, len(f.lines)) if f.lines[e] == m[1] + "}")
            body = next((e for e in range(k, end) if f.lines[e] == m[1] + "{"), k)
            contract = next((e for e in range(k, body) if re.match(r"\s*(requires|ensures)\b", f.lines[e])), body)
            yield m[2], k + 1, end - k + 1 - (body - contract)


long, most = [], 0
count = 0
for ending in (".rt", ".antt"):
    for f in files("crates", ending):
        if len(f.lines) > FILE:
            long.append("%s has %d lines" % (f.path, len(f.lines)))
        widest = lambda line: PROOF_LINE if "/proofs/" in f.path or line.lstrip().startswith("#[tactic(") else LINE
        long += ["%s:%d: a line of %d characters" % (f.path, k + 1, len(line)) for k, line in enumerate(f.lines) if len(line) > widest(line)]
        for name, line, size in functions(f) if ending == ".rt" else ():
            count, most = count + 1, max(most, size)
            if size > FUNCTION:
                long.append("%s:%d: %s has %d lines" % (f.path, line, name, size))
print("sizes: %d functions, the longest of %d lines; %d over the house's sizes" % (count, most, len(long)))
for l in long:
    print("sizes:", l)
sys.exit(1 if long or not count else 0)

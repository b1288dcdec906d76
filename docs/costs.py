#!/usr/bin/env python3
"""What the gate costs, as a table: of each crate the seconds and the memory of its proof, and how many edits it has; then the host tests.

    ./test 2>&1 | tee gate.log
    docs/costs.py --measure > crates.txt      proves each crate by itself over proved ones, some minutes (GNU time)
    docs/costs.py gate.log crates.txt         the table (docs/COSTS.md has one, of an older kit, which told the seconds of each crate and edit)

`rt ci` tells no seconds of a crate, so they are those of `rt check` after what it kept here is removed: on a machine where no other checkout has kept
what it proved of the crate, since it begins with that. The memory is the most that a process of the proof held."""
import os
import re
import shutil
import subprocess
import sys

sys.dont_write_bytecode = True
from sources import ROOT, crates, usage


def gate(path):
    edits, parts = {}, []
    for row in open(path, encoding="utf-8", errors="replace"):
        if m := re.match(r"rt: must-fail (\w+)/\S+: refused", row):
            edits[m[1]] = edits.get(m[1], 0) + 1
        elif m := re.match(r"== (.*): passed, (\d+) s", row):
            parts.append((m[1], int(m[2])))
        elif m := re.match(r"== all of (\S+) took (\d+) s", row):
            parts.append(("all of " + m[1], int(m[2])))
    return edits, parts


def measured(path):
    return {m[1]: (float(m[2]), int(m[3])) for m in map(re.compile(r"(\w+) ([\d.]+) s (\d+) MB").match, open(path, encoding="utf-8")) if m}


def table(log, each):
    edits, parts = gate(log)
    found = measured(each)
    print("| crate | proof, s | memory, MB | edits |\n|---|---|---|---|")
    for crate, (seconds, most) in found.items():
        print("| %s | %.0f | %d | %s |" % (crate, seconds, most, edits.get(crate, "")))
    print("| all (of memory the most) | %.0f | %d | %d |" % (sum(s for s, _ in found.values()), max(m for _, m in found.values()), sum(edits.values())))
    print("\n| part of the gate | s |\n|---|---|")
    for name, seconds in parts:
        print("| %s | %d |" % (name, seconds))


def below_first():
    """The crates, each after those that it leans on."""
    listed, order = crates(), []
    while len(order) < len(listed):
        order += [c for c, (_, used) in listed.items() if c not in order and all(u in order for u in used)]
    return order


def measure():
    for crate in below_first():
        folder = os.path.join(ROOT, "crates", crate)
        shutil.rmtree(os.path.join(folder, "out", "incremental"), ignore_errors=True)  # so that it is proved anew
        run = subprocess.run(["/usr/bin/time", "-f", "%e %M", "rt", "check"], cwd=folder, capture_output=True, text=True)
        seconds, most = run.stderr.split("\n")[-2].split()
        print("%s %s s %d MB" % (crate, seconds, int(most) // 1024), flush=True)
        subprocess.run(["rt", "lib"], cwd=folder, capture_output=True)  # for those above, outside of their times


if sys.argv[1:] == ["--measure"]:
    measure()
elif len(sys.argv) == 3 and all(map(os.path.isfile, sys.argv[1:])):
    table(*sys.argv[1:])
else:
    usage("docs/costs.py --measure, or docs/costs.py GATE.LOG CRATES.TXT")

#!/usr/bin/env python3
"""Nothing is taken on trust in a crate of ours but what the programs reach of the system. The crates lean on one another and on std alone: crates.txt names
no other library. No library, and no static library, has unsafe code, a C function of others, or a part of std that reaches the system. And what the
checker says of each static library, with all below it, names no axiom; of each program those of read and write, and of the words for an error. It says so
of these crates (`rt ci`, whose output ./test keeps in target/rt-ci.log; where an earlier run's proof is kept, `rt check` says it again), not of a library by itself."""
import glob
import os
import re
import subprocess
import sys

sys.dont_write_bytecode = True
os.chdir(os.path.join(os.path.dirname(os.path.abspath(__file__)), "..", ".."))
sys.path.insert(0, "docs")
from sources import crates, newest, read

LOG = "target/rt-ci.log"
PROGRAMS_MAY = {"libc::read", "libc::write", "os::c::__xpg_strerror_r", "os::c::rattle_errno"}
OUTSIDE = re.compile(r"unsafe(?!\(no_mangle\))|extern(?! \"C\" fn)|std::(?:fs|io|env|net|process|time|thread|rt|os)\b|HostRuntime")


def said(crate, log):
    """What the checker said of a crate."""
    found = re.search(r"^== %s\n(.*?^logic=.*?)$" % crate, log, re.M | re.S)
    if found and "\n==" not in found[1]:
        return found[1]
    return subprocess.run(["rt", "check"], cwd="crates/" + crate, stdin=subprocess.DEVNULL, capture_output=True, text=True).stdout


def reached(text):
    """The axioms that a report names, and how many it counts; None where it is no report of a proved crate."""
    if not re.search(r"^logic=proved ", text, re.M):
        return None, None
    named = set(re.findall(r"[\w:]+::\w+", " ".join(re.findall(r"^axioms \w+: (.*)$", text, re.M))))
    return named, sum(map(int, re.findall(r"^logic=proved .*\baxioms=(\d+)", text, re.M)))


def main():
    listed, wrong, leaning = crates(), [], []
    log = read(LOG) if os.path.exists(LOG) and os.path.getmtime(LOG) > newest("crates") else ""
    for crate, (kind, used) in listed.items():
        wrong += ["%s leans on %s, which is not ours" % (crate, name) for name in used if name not in listed]
        program = os.path.exists("crates/%s/src/main.rt" % crate)
        if not program:
            for path in sorted(glob.glob("crates/%s/src/**/*.rt" % crate, recursive=True)):
                wrong += ["%s: %s" % (path, m) for m in OUTSIDE.findall(re.sub("//.*", "", read(path)))]
        if program or kind:
            named, count = reached(said(crate, log))
            if named is None:
                wrong.append("%s: the checker has not said that it is proved" % crate)
                continue
            if named:
                leaning.append("%s: %s" % (crate, ", ".join(sorted(named))))
            if count != len(named) or named - (PROGRAMS_MAY if program else set()):
                wrong.append("%s leans on %s (%d counted)" % (crate, ", ".join(sorted(named)), count))
    print("axioms: %d crates; %s" % (len(listed), "; ".join(leaning) or "none"))
    for w in wrong:
        print("axioms:", w)
    sys.exit(1 if wrong or not listed else 0)


main()

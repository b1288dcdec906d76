#!/usr/bin/env python3
"""Each law is there for something, and is stated once. Fails at a name declared in specs or proofs that nothing uses and docs/PROOFS.md does not
give as a result, and at two laws whose statements are equal up to the names of their variables. Laws that had landed, and that today's check does
without, are kept: docs/PORT.md lists them under "Laws that no proof cites any more".

A use is a mention outside of the name's own declaration, comments and imports: in the same file, or in a file that imports it from there. So a name
that only a variable shares counts as used."""
import collections
import os
import re
import sys

sys.path.insert(0, os.path.join(os.path.dirname(os.path.abspath(__file__)), "..", "..", "docs"))
from sources import declarations, files, imported, indent, module, read

OF_FUNCTIONS = re.compile(r"/proofs/.+/(Answers|Invariants|Proof)\.antt$")  # not a file of lemmas that has such a name


def unused(sources, codes):
    takers = collections.Counter()  # (module, name) or module: how many files use it
    for f in sources + codes:
        words = f.words()
        for path, items, alias in f.imports:
            takers.update((path, name) for name, called in imported(items) if called in words)
            if alias and any("%s.%s" % (alias, w) in line for line in f.bare for w in words):
                takers[path] += 1
        # of a tactic's list in the code: crate::proofs::Runs::law
        crate = f.path.split("/")[1]
        for path, name in re.findall(r"\bcrate((?:::\w+)+)::(\w+)", " ".join(f.bare)) if f.path.endswith(".rt") else ():
            takers["Rattle." + crate + path.replace("::", "."), name] += 1
    for f in sources:
        for name, lines, _ in declarations(f):
            if OF_FUNCTIONS.search(f.path) and f.path.endswith("/Invariants.antt") and indent(f.bare[lines[0]]):
                continue  # a part of an invariant, which the check reads
            asked = OF_FUNCTIONS.search(f.path) and re.search(r" : (goal\.|.* statement )", f.bare[lines[0]])  # by the checker, of each function
            inside = name in f.words(k for k in range(len(f.bare)) if k not in lines)
            if not (asked or inside or takers[module(f.path), name] or takers[module(f.path)]):
                yield "%s:%d: `%s`" % (f.path, lines[0] + 1, name), name


def statement(f, name, lines):
    """What a law says, its variables numbered in the order in which they are bound, each binder by itself."""
    told = [f.bare[lines[0]].split(" : ", 1)[1]]
    for k in lines[1:]:
        if indent(f.bare[k]) == 0:
            break
        told.append(f.bare[k].strip())
    text = " ".join(told).replace("{", "(").replace("}", ")")
    bound = {}
    for group in re.findall(r"\(([^():]+?) : |λ ([^.]+?)\.", text):
        for v in " ".join(group).split():
            bound.setdefault(v, "v%d" % len(bound))
    text = " ".join(bound.get(t, t) for t in re.findall(r"[^\s()\[\];,]+|[()\[\];,]", text))
    apart = lambda m: " ".join("( %s : %s )" % (v, m[2]) for v in m[1].split())
    return re.sub(r"\( ((?:v\d+ )+): ([^()]*?) \)", apart, text).replace(") → (", ") (")


def repeated(sources):
    laws = collections.defaultdict(list)
    for f in sources:
        if "/proofs/" in f.path and not OF_FUNCTIONS.search(f.path):
            for name, lines, _ in declarations(f):
                line = f.bare[lines[0]]
                if indent(line) == 0 and " : " in line and re.search("[≡≤<⊥]", told := statement(f, name, lines)):
                    laws[told].append("%s:%d: `%s`" % (f.path, lines[0] + 1, name))
    return [places for places in laws.values() if len(places) > 1]


def main():
    sources = [f for f in files("crates", ".antt") if not f.path.endswith("/Lib.antt")]
    results = read("docs/PROOFS.md") + "".join(re.findall(r"^## Laws that no proof cites any more\n(.*?)(?=^## |\Z)", read("docs/PORT.md"), re.M | re.S))
    dead = [place for place, name in unused(sources, list(files("crates", ".rt"))) if "`%s`" % name not in results]
    twice = repeated(sources)
    print("laws: %d files read; %d names that nothing uses, %d laws stated twice" % (len(sources), len(dead), len(twice)))
    for place in dead:
        print("laws: used by nothing:", place)
    for places in twice:
        print("laws: stated twice:", ", ".join(places))
    sys.exit(1 if dead or twice or not sources else 0)


main()

#!/usr/bin/env python3
"""What must be believed, counted: the definitions (crates/NAME/specs) that the promises lean on, from the contracts of the calls on offer down.

    believe.py          a table: for each crate the lines of definitions, by who needs them first
    believe.py --names  also the names, in that order
    believe.py --check  status 1 if the table in docs/PROOFS.md is another one

A column counts what the columns before it do not need: the contracts of the calls on offer (demands 1 and 2); the claim of demand 3; old or new
(S-7: what is claimed of a stop in a format); blank (S-4: the judge's answer, and the calls of before); dots (S-5: what 16 leaves, that all
else is 01's, and the edges); widths (S-9: that the listing goes by no width of its counts);
tables (S-10: that the checksum's 16 entries and its 256 agree); points (S-1: their calls, and what is claimed of them over histories); the starred edges; how many writes a call makes;
the hosts (the C calls and the line program). What is left serves proofs, contracts inside, and the comparison with the Rust: who trusts the checker need not read it. A line is one of a definition or of the comment
right above it; imports, empty lines and heads of files are not counted."""
import os
import re
import sys

sys.dont_write_bytecode = True
from sources import ROOT, crates, declarations, files, imported, module, usage

# who needs definitions: a title, and where it starts: functions of a crate by their contracts, or definitions by their file and name
STARTS = [
    ("calls", {"store": None, "append": ["append", "sync", "room"], "reader": ["next", "seek", "record"], "handles": ["generation", "store_id", "chunks", "chunk_sectors"]}, []),
    ("demand 3", {}, [("crates/power/specs/Claim.antt", "Demand3")]),
    ("old or new", {}, [("crates/power/specs/OldOrNew.antt", n) for n in ("AfterFormat", "ValidMounts")]),
    ("map", {}, [("crates/power/specs/Map.antt", "MapHolds")]),
    ("blank", {"record": ["judge"]}, [("crates/record/specs/Edges.antt", "Edges")]
        + [("crates/reader/specs/Earlier.antt", n) for n in ("next_earlier", "below_earlier", "next_forgot", "below_forgot")]),
    ("dots", {}, [("crates/store/specs/Dots.antt", "Dots"), ("crates/names/specs/Edges.antt", "Edges")]),
    ("widths", {}, [("crates/store/specs/Widths.antt", "Widths")]),
    ("tables", {}, [("crates/checksum/specs/Tables.antt", "Sixteen")]),
    ("points", {"points": ["set_point", "read_point"]}, [("crates/hatch/specs/Claim.antt", n) for n in ("CountsAsCalls", "SetByCalls", "Demand3Acts", "PowerStop")]
        + [("crates/hatch/specs/Pins.antt", "AsSet"), ("crates/marks/specs/Edges.antt", "Edges")]),
    ("edges", {}, [("crates/store/specs/Edges.antt", "Starred")]),
    ("writes", {}, [("crates/writes/specs/Writes.antt", n) for n in ("Most", "commit_most", "create_most", "records_most")]
        + [("crates/writes/specs/More.antt", n) for n in ("write_more", "oldest_more", "app_more")]
        + [("crates/power/specs/Room.antt", n) for n in ("Tells", "Allows", "CanCommit", "HasRoom", "TakesChunk")]),
    ("hosts", {"firmware": ["store_mount", "store_format", "store_delete", "store_list"], "lines": ["feed", "last"]}, [("crates/lines/specs/Program.antt", "printed_of")]),
]


def definitions():
    """(file, name) -> the lines that declare it, for the definitions that stand by themselves."""
    found = {}
    for f in files("crates", ".antt"):
        if "/specs/" in f.path:
            for name, lines, _ in declarations(f):
                if f.bare[lines[0]][:1].strip():
                    found.setdefault((f.path, name), (f, lines))
    return found


def named(f, lines, known, homes):
    """The definitions that some lines of a file name."""
    words = f.words(lines)
    for w in words:
        if (f.path, w) in known:
            yield f.path, w
    for path, items, _ in f.imports:
        for name, called in imported(items):
            if called in words and (homes.get(path), name) in known:
                yield homes[path], name


def contract(f, name):
    """The lines of the contract of a function, or of all that others may call; none where the file has no such function."""
    for k, line in enumerate(f.code):
        if m := re.match(r'\s*(pub )?(?:extern "C" )?fn (\w+)', line):
            if m[1] if name is None else m[2] == name:
                end = next(e for e in range(k, len(f.code)) if f.code[e].strip() == "{")
                first = next((c for c in range(k, end) if re.match(r"\s*(requires|ensures) ", f.code[c])), end)
                yield from range(first, end)


def needed(known, homes):
    """For each start what it needs that those before it do not."""
    seen, groups = set(), []
    for title, functions, theorems in STARTS:
        ahead = [key for key in theorems if key in known or sys.exit("no such definition: %s %s" % key)]
        for crate, names in functions.items():
            for f in files("crates/%s/src" % crate, ".rt"):
                for name in names or [None]:
                    ahead += named(f, list(contract(f, name)), known, homes)
        group = []
        while ahead:
            key = ahead.pop()
            if key not in seen:
                seen.add(key)
                group.append(key)
                ahead += named(*known[key], known, homes)
        groups.append((title, group))
    return groups + [("the rest", [key for key in known if key not in seen])]


def table(known, groups):
    count = {}
    for title, group in groups:
        for key in group:
            f, lines = known[key]
            size = sum(1 for k in lines if f.lines[k].strip()) + len(f.comment_above(lines[0]))
            row = count.setdefault(key[0].split("/")[1], dict.fromkeys((t for t, _ in groups), 0))
            row[title] += size
    titles = [t for t, _ in groups]
    yield "| crate | " + " | ".join(titles) + " |"
    yield "|---" * (len(titles) + 1) + "|"
    for crate in (c for c in crates() if c in count):
        yield "| %s | %s |" % (crate, " | ".join(str(count[crate][t] or "") for t in titles))
    yield "| all | %s |" % " | ".join(str(sum(row[t] for row in count.values())) for t in titles)


def main():
    if sys.argv[1:] not in ([], ["--names"], ["--check"]):
        usage("docs/believe.py [--names | --check]")
    known = definitions()
    homes = {module(path): path for path, _ in known}
    groups = needed(known, homes)
    rows = list(table(known, groups))
    if "--check" in sys.argv:
        told = open(os.path.join(ROOT, "docs", "PROOFS.md"), encoding="utf-8").read()
        same = "\n".join(rows) in told
        print("believe: the table of docs/PROOFS.md is " + ("as counted" if same else "not as docs/believe.py counts"))
        sys.exit(0 if same and groups[0][1] else 1)
    print("\n".join(rows))
    if "--names" in sys.argv:
        for title, group in groups:
            print("\n%s" % title)
            for path, name in sorted(group):
                print("  %s `%s`" % (re.sub(r"crates/(\w+)/specs/(\w+).antt", r"\1/\2", path), name))


main()

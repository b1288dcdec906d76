#!/usr/bin/env python3
"""Every name that the tables of docs/PROOFS.md give must stand in the sources: a definition, a law, a function, or a must-fail edit. A definition
given with its file (le/Field `get_le`) must stand in that file, a law given with its file (Fields `get_put`, safe Copy `copy_frame`) be declared
there, an edit in the column of edits (le `wrong_order`) be that crate's, and a function given with its crate (`store::mount`) be in it. A row of a
table with that column names an edit there, or begins with "none:" or "by construction" and says why. Of docs/CHANGING.md and docs/WRITES.md each
single word must stand somewhere in the sources, the scripts or tests/port, and each definition or law that is given with its file in that file."""
import glob
import os
import re
import sys

sys.dont_write_bytecode = True
sys.path.insert(0, "docs")
from faults import FAULTS

MAP, PAGES = "docs/PROOFS.md", ["docs/CHANGING.md", "docs/WRITES.md"]
NAME = re.compile(r"`([^`]+)`")
GROUP = r"((?:`[^`]+`(?: \([^)]*\))?(?:, )?)+)"
WORD = r"[^\s(){}\[\];,.:&|=<>!]+"


def read(path):
    return open(path, encoding="utf-8").read()


def tables(path):
    """The rows of the tables, each as a list of pairs: its column's title, and the cell."""
    titles = None
    for line in read(path).split("\n"):
        cells = [c.strip() for c in re.split(r"(?<!\\)\|", line)[1:-1]] if line.startswith("|") else None
        if cells and titles:
            yield list(zip(titles, cells))
        titles = cells and (titles or cells)


def sources(folder):
    words, edits = set(), set()
    for place, _, files in os.walk(folder):
        for name in files:
            if name.endswith(".edit"):
                edits.add(name[: -len(".edit")])
            elif name.endswith((".antt", ".rt")):
                words.update(re.findall(WORD, read(os.path.join(place, name))))
    return words, edits


def is_edit(crate, name):
    listed = any((crate, name) == fault[:2] for fault in FAULTS)
    return listed or any(os.path.exists(f"crates/{crate}/{place}/{name}.edit") for place in ("must-fail", "faults"))


def in_group(group):
    return [n.split()[0] for n in NAME.findall(re.sub(r"\([^)]*\)", "", group))]


def misplaced(cell, title):
    for crate, file, group in re.findall(rf"\b([a-z_]+)/([A-Z]\w*) {GROUP}", cell):
        path = f"crates/{crate}/specs/{file}.antt"
        found = set(re.findall(WORD, read(path))) if os.path.exists(path) else set()
        yield from (f"{n} in {path}" for n in in_group(group) if n not in found)
    for crate, file, group in re.findall(rf"(?:\b([a-z_]+) )?(?<!/)\b([A-Z]\w*) {GROUP}", cell):
        places = glob.glob(f"crates/{crate if os.path.isdir(f'crates/{crate}') and crate else '*'}/proofs/{file}.antt")
        for n in in_group(group):
            if not any(re.search(rf"^ *(?:abbrev )?pub (?:record |data )?{re.escape(n)}(?=[\s:]|$)", read(p), re.M) for p in places):
                yield f"{n} among the laws of {crate} {file}"
    for crate, item in re.findall(r"`([a-z_]+)::(\w+)`", cell):
        if not any(re.search(rf"\b(?:fn|struct|enum|use \w+::) ?{item}\b", read(p)) for p in glob.glob(f"crates/{crate}/src/*.rt")):
            yield f"{item} in crate {crate}"
    if title.startswith("refused edit"):
        for crate, group in re.findall(rf"\b([a-z_]+) {GROUP}", cell):
            yield from (f"edit {n} of {crate}" for n in in_group(group) if not is_edit(crate, n))


def unshown(row):
    """The column of edits names neither an edit nor a reason."""
    title, cell = row[-1]
    return title.startswith("refused edit") and not NAME.search(cell) and not re.match(r"-+$|none: .|by construction", cell)


words, edits = sources("crates")
edits.update(fault[1] for fault in FAULTS)
names, missing, bare = set(), [], []
for row in tables(MAP):
    for title, cell in row[1:]:
        names.update(n.split("::")[-1].split()[0] for n in NAME.findall(cell))
        missing += misplaced(cell, title)
    if unshown(row):
        bare.append(row[0][1])
missing += [n for n in sorted(names) if n not in words and n not in edits]
words.update(w for p in glob.glob("docs/*.py") + glob.glob("tests/port/src/**/*.rs", recursive=True) for w in re.findall(WORD, read(p)))
many = 0
for page in PAGES:
    plain = {n for n in NAME.findall(read(page)) if re.fullmatch(r"[A-Za-z][\w-]*", n)}
    many += len(plain)
    missing += [f"{n}, of {page}" for n in sorted(plain - words - set(os.listdir("crates")))] + list(misplaced(read(page), ""))
print(f"map: {len(names)} names of {MAP} and {many} of {' and '.join(PAGES)} looked up, {len(missing)} not found; {len(bare)} rows with neither an edit nor a reason")
for n in missing:
    print("map: not in the sources:", n)
for n in bare:
    print("map: no edit and no reason:", n)
sys.exit(1 if missing or bare or not names else 0)

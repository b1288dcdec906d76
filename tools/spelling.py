#!/usr/bin/env python3
"""Spells this repository's own definitions and lemmas as today's Rattle does.

usage: python3 tools/spelling.py [ROOT]      (ROOT: the top of a checkout; run it once, after port.py)

A row of a table is an old name, a tab and a new one. It turns whole words alone. By spelling.tsv, from what port.py leaves:
  .antt           every word, but not one that the file imports from a library that is not ours
  .rt             clauses, ghost items and comments; a name with plain underscores may be a function's, and stays
By landed-names.tsv, from the texts as they had landed, since port.py leaves these alone:
  .edit           every word
  .md             code spans
Where two names would fall together the table gives the lemma the ending _lem. Functions of src/, exported names and strings keep theirs.
"""

import os
import re
import sys

HERE = os.path.dirname(os.path.realpath(__file__))
WORD = re.compile(r'[^\s(){}\[\].;,:@"«»`|]+')
PLAIN = re.compile(r"[a-z0-9_]+")
USE = re.compile(r"^(?:pub )?use ([^\s;{]+)\{([^}]*)\}", re.M)


def table(name):
    with open(os.path.join(HERE, name), encoding="utf-8") as f:
        return dict(line.rstrip("\n").split("\t") for line in f if line.strip())


def foreign(text, crates):
    """The names that a file has from a library that is not ours."""
    found = set()
    for module, names in USE.findall(text):
        parts = module.split(".")
        if not (parts[0] == "Rattle" and len(parts) > 1 and parts[1] in crates):
            found |= {n.split(" as ")[-1].strip() for n in names.split(",")}
    return found


def turned(text, rows, stay=frozenset()):
    def one(m):
        w = m[0]
        return rows[w] if w in rows and w not in stay else w

    return WORD.sub(one, text)


def spans(text, rows):
    return re.sub(r"`[^`\n]+`", lambda m: turned(m[0], rows), text)


def main():
    root = sys.argv[1] if len(sys.argv) > 1 else "."
    rows, landed = table("spelling.tsv"), table("landed-names.tsv")
    inside = os.path.join(root, "crates")
    crates = set(os.listdir(inside))
    changed = 0
    for top in ("crates", "docs", "README.md"):
        here = os.path.join(root, top)
        found = [here] if os.path.isfile(here) else [os.path.join(d, f) for d, _, fs in os.walk(here) if "/out" not in d for f in fs]
        for path in sorted(found):
            kind = path.rsplit(".", 1)[-1]
            if kind not in ("antt", "rt", "edit", "md"):
                continue
            with open(path, encoding="utf-8") as f:
                text = f.read()
            if kind == "md":
                new = spans(text, landed)
            elif kind == "antt":
                new = turned(text, rows, foreign(text, crates))
                if path.endswith("Proof.antt"):
                    new = re.sub(r"\.([a-z_]+[0-9]*)_lem\b", r".\1", new)
            else:
                new = turned(text, landed if kind == "edit" else {o: n for o, n in rows.items() if not PLAIN.fullmatch(o)})
            if new != text:
                changed += 1
                with open(path, "w", encoding="utf-8") as f:
                    f.write(new)
    print(f"spelling: {changed} files")


if __name__ == "__main__":
    main()

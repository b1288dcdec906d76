#!/usr/bin/env python3
"""The numbers of docs/WRITES.md, from the formulas in its first table.

    writes.py          the second table, one line for each number of table sectors
    writes.py --check  status 1 if docs/WRITES.md has other lines, or its formulas other numbers than those proved in crates/writes/proofs/Edges.antt"""
import os
import re
import sys

sys.dont_write_bytecode = True
from sources import ROOT, usage

# the columns of the second table: rows of the first one, by their first cells, and whether writes or reads
WRITES, READS = 1, 2
COLUMNS = [
    (["`format`", "`delete`, `delete_oldest`", "`create`"], WRITES), (["`create` with a rollover"], WRITES), (["one record"], WRITES), (["one record with a rollover"], WRITES),
    (["r records"], WRITES), (["r records with a rollover"], WRITES),
    (["`list`, `reader`"], READS), (["`delete`, `delete_oldest`"], READS), (["`create`"], READS), (["`create` with a rollover"], READS), (["one record"], READS),
    (["one record with a rollover"], READS),
]
# Edges: of c chunks a commit; create, one record and three with none; create, one record and three with a rollover
PROVED = ["`format`", "`create`", "one record", "r records", "`create` with a rollover", "one record with a rollover", "r records with a rollover"]


def page():
    return open(os.path.join(ROOT, "docs", "WRITES.md"), encoding="utf-8").read()


def formulas(text):
    """First cell -> (writes, reads), of the table under "Each call"."""
    rows = [[c.strip() for c in line.strip("|").split("|")] for line in text.split("## Each call")[1].split("\n## ")[0].split("\n") if line.startswith("|")]
    return {row[0]: (None, row[1], row[2]) for row in rows[2:]}


def value(formula, **numbers):
    """A formula such as 8 + r (T + 3) at these numbers."""
    product = re.sub(r"(?<=[\drT)])\s*(?=[rTC(])", "*", formula)
    return eval(product, {"__builtins__": {}}, numbers)


def table(known):
    for t in range(1, 17):
        cells = []
        for rows, what in COLUMNS:
            found = {value(known[row][what], T=t, r=10) for row in rows}
            assert len(found) == 1, rows
            cells.append(str(found.pop()))
        yield "| %d | %s to %s | %s |" % (t, "{:,}".format(128 * t - 127), "{:,}".format(128 * t), " | ".join(cells))


def proved(known):
    """What the formulas say otherwise than the law."""
    edges = open(os.path.join(ROOT, "crates/writes/proofs/Edges.antt"), encoding="utf-8").read()
    laws = [list(map(int, m.split())) for m in re.findall(r": Numbers ([\d ]+)", edges)]
    assert laws, "no numbers in Edges"
    for c, *numbers in laws:
        for row, n in zip(PROVED, numbers):
            said = value(known[row][WRITES], T=-(-c // 128), r=3)
            if said != n:
                yield "%s: %d chunks: the page %d, the law %d" % (row, c, said, n)


def main():
    if sys.argv[1:] not in ([], ["--check"]):
        usage("docs/writes.py [--check]")
    text = page()
    known = formulas(text)
    rows = list(table(known))
    if "--check" not in sys.argv:
        print("\n".join(rows))
        return
    wrong = list(proved(known)) + ["no such line: " + row for row in rows if row not in text.split("\n")]
    print("\n".join(wrong) or "writes: the numbers of docs/WRITES.md are those of its formulas, and those proved")
    sys.exit(1 if wrong else 0)


main()

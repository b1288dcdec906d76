#!/usr/bin/env python3
"""Writes docs/DESIGN-SIDES.md: what docs/DESIGN-PASS.md changed in types, functions, definitions and theorems, the old form beside the new.

    docs/design_sides.py [COMMIT]   since a commit; without one since the first line of docs/DESIGN-PASS.md

Two forms are compared as trees of words: layout, comments, imports and parentheses that say nothing are gone, and a constructor is known by its type,
whatever it is called in the file. An item is "by the renamings alone" where the old tree, with the renamings below, is the new tree."""
import os
import re
import sys
from collections import defaultdict
from itertools import product

sys.dont_write_bytecode = True
from design_forms import PARTS, RUST, Side, nodes, normal
from sources import ROOT, crates, indent, read, usage

# crate and type, the type in proofs, the type in Rust, its constructors (`_` an argument); a type with two rows was used in two ways
RENAMINGS = """
medium Outcome | Result Unit Error | Result<(), Error> | Done: Ok tt | No: Err
decimal Number | Option ℕ | Option<u64> | Nothing: None | Value: Some
marks Mark | Option Mark | Option<Mark> | Nothing: None | At: Some (record { id = _; number = _ })
handles Writer | Option Writer | Option<Writer> | Nobody: None | Open: opened_by _ _
record Judged | Result (Option ℕ) Error | Result<Option<usize>, Error> | Refused: Err | Valid: Ok (Some _) | Other: Ok None
directory Slot | Result (Option File) Error | Result<Option<File>, Error> | Refused: Err | Free: Ok None | File: file_of _ _
directory Found | Result Found Error | Result<Found, Error> | Refused: Err | At: found_at _ _
directory Looked | Result Seen Error | Result<Seen, Error> | Refused: Err | Done: Ok
directory OldestFile | Result (Option Old) Error | Result<Option<Old>, Error> | Refused: Err
table LinkAt | Result LinkAt Error | Result<LinkAt, Error> | Refused: Err | Past: Ok Past | Free: Ok Free | Linked: Ok (Linked _)
table Place | Result Place Error | Result<Place, Error> | Refused: Err | At: Ok (place_at _ _)
table Place | Option Place | Option<Place> | At: Some (place_at _ _)
table Chained | Result ChainParts Error | Result<ChainParts, Error> | Refused: Err | Whole: Ok
table Pick | Result (Option ℕ) Error | Result<Option<u32>, Error> | Refused: Err | Nothing: Ok None | At: Ok (Some _)
table Pick | Option ℕ | Option<u32> | Nothing: None | At: Some
table FreeCount | Result ℕ Error | Result<u32, Error> | Refused: Err | Is: Ok
reader End | Option ℕ | Option<u32> | Last: None | Records: Some
reader Found | Result Found Error | Result<Found, Error> | Refused: Err | Payload: Ok (Payload _) | Hole: Ok (Hole _ _) | End: Ok End
reader Next | Result Next Error | Result<Next, Error> | Refused: Err | Payload: Ok (Payload _) | Hole: Ok (Hole _ _ _) | End: Ok End
reader Numbered | Result ℕ Error | Result<u32, Error> | Refused: Err | Is: Ok
reader Searched | Result ℕ Error | Result<u32, Error> | Refused: Err | At: Ok
reader Entered | Result Reader Error | Result<Reader, Error>
reopen Records | Result ℕ Error | Result<u32, Error> | Refused: Err | Are: Ok
points Ended | Result Ended Error | Result<Ended, Error> | Refused: Err
points Walked | Result Seen Error | Result<Seen, Error> | Refused: Err | To: Ok
points Sight | Result Sight Error | Result<Sight, Error> | Refused: Err | Passed: Ok Passed | Line: Ok (Line _ _) | End: Ok End
points Place | Result Place Error | Result<Place, Error> | Refused: Err | Absent: Ok Absent | Unset: Ok Unset | Line: Ok (Line _ _)
session Reply | Result Reply Error | Result<Reply, Error> | No: Err | Number: Ok (Number _) | Rows: Ok (Rows _)
"""
# what states the promise of a function that is gone, `?` where nothing is known
INSTEAD = """
checksum block byte_step serial turn | the method of `Table` of this name
checksum wide | `u32::from`
commit same_crcs same_head | `==` on `Header` in `is_current`
commit finished | the struct literal in `rewrite`
commit so_far | the struct literals in `write_body_sector` and `write_body`
decimal is_digit | `u8::is_ascii_digit` in `read`
header Decoded bare | `Replica`, whose `Ours` holds the header
header Mounted | `Result<Store, Error>`
header is_foreign | an arm on `Replica::Foreign` in `copy_at`
header no_copies no_current | `Err`
lines left_after | the `for` in `run`
points no_upto up_to | `upto_at`, whose Result `read_point` hands on
points seen | the struct literal with `Ok`, in `walk`
reader below | `Reader::advance`, with `Some` of the limit
reader blank_at | `Reader::is_blank`
reader end_ok | `Reader::end_ok`
reader limit_of | `Reader::limit`
reader is_last | `Option::is_none` in `hole`
reader passed_end | `Reader::has_passed`
record heard | `Verdict::heard`
session number_reply refused room_reply rows_reply | `?` in `line_reply` and the functions that it calls
"""


def rows(text):
    return [[part.strip() for part in line.split("|")] for line in text.strip().split("\n") if line.strip()]


def rules_of(side):
    """The renamings by type: (for proofs, for Rust), one or more of each."""
    found = defaultdict(list)
    for of, kind, rust, *variants in rows(RENAMINGS):
        crate, name = of.split()
        here = {t: f"{c}.{t}" for c, t in side.types if c == crate} | {"Error": "medium.Error"}
        proofs = {f"{crate}.{name}": ["("] + nodes(kind, here)[1:]}
        for variant, form in (v.split(": ") for v in variants):
            said = {w: f"{here[name]}.{w}" for w in re.findall(r"[A-Z]\w*", form) if w not in ("Ok", "Err", "Some", "None")} if name in here else {}
            proofs[f"{crate}.{name}.{variant}"] = ["("] + nodes(form, said)[1:]
        found[f"{crate}.{name}"].append((proofs, {f"{crate}.{name}": [here.get(w, w) for w in RUST.findall(rust)]}))
    return found


def choices(item, rules):
    """Each way to rename an item: one row of each type that it names."""
    named = {".".join(w.split(".")[:2]) for w in item.names.values()} & set(rules)
    for rows in product(*(rules[n] for n in sorted(named))):
        yield {k: v for p, _ in rows for k, v in p.items()}, {k: v for _, r in rows for k, v in r.items()}


def plain(part, item):
    """The form of an item with no renaming, made once."""
    item.form = getattr(item, "form", None) or normal(part, item)
    return item.form


def paired(part, old, new, rules):
    """Of the items of one crate and name: those alike, those alike once renamed, those that differ, those gone and those new."""
    found, left = defaultdict(list), list(new)
    tests = {
        "same": lambda a, b: plain(part, a) == plain(part, b),
        "renamed": lambda a, b: any(normal(part, a, rule) == plain(part, b) for rule in choices(a, rules)),
        "changed": lambda a, b: a.path == b.path,
        "changed elsewhere": lambda a, b: True,
    }
    for how, test in tests.items():
        for a in old[:]:
            b = next((b for b in left if test(a, b)), None)
            if b:
                old.remove(a)
                left.remove(b)
                found[how.split()[0]].append((a, b))
    return {**found, "gone": [(a, None) for a in old], "new": [(None, b) for b in left]}


def compared(part, old, new, rules):
    """The items of a part: how -> pairs. One gone that stands as it was under another name or in another crate is moved."""
    found = defaultdict(list)
    for key in sorted({*old.items[part], *new.items[part]}):
        for how, pairs in paired(part, list(old.items[part][key]), new.items[part][key], rules).items():
            found[how] += pairs
    for a, _ in found["gone"][:]:
        forms = {normal(part, a, rule) for rule in choices(a, rules)}
        b = next((b for _, b in found["new"] if plain(part, b) in forms), None)
        if b and part != "Types":
            found["gone"].remove((a, None))
            found["new"].remove((None, b))
            found["moved"].append((a, b))
    return found


def block(title, text):
    """A declaration in full, as far left as it goes."""
    lines = text.split("\n")
    least = min(map(indent, lines))
    return [f"{title}:", "", "```", *(line[least:] for line in lines), "```", ""]


def said(name):
    return f"`{name}`"


def stand_in(item):
    crate, name = item.path.split("/")[1], item.name.split("::")[-1]
    named = any(of == f"{crate} {item.name}" for of, *_ in rows(RENAMINGS))
    told = [what for of, what in rows(INSTEAD) if of.split()[0] == crate and name in of.split()[1:]]
    return "in its place the renaming above" if named else told[0] if told else "?"


def in_crate(part, found):
    """What the page says of a part in one crate."""
    out, hows = [], {how: sorted(pairs, key=lambda p: ((p[0] or p[1]).name, (p[0] or p[1]).path)) for how, pairs in found.items()}
    if alone := [a for a, _ in hows.get("renamed", [])]:
        out += ["By the renamings alone: " + ", ".join(said(a.name) for a in alone) + ".", ""]
    if moved := hows.get("moved", []):
        out += ["Under another name or elsewhere, else the same: " + ", ".join(f"{said(a.name)} -> {said(b.name)} ({b.path[7:]})" for a, b in moved) + ".", ""]
    if part == "Private functions":
        for how, word in (("changed", "Changed"), ("gone", "Gone"), ("new", "New")):
            told = [said((a or b).name) + (f" ({stand_in(a)})" if how == "gone" else "") for a, b in hows.get(how, [])]
            out += [f"{word}: " + ", ".join(told) + ".", ""] if told else []
        return out
    for how in ("changed", "gone", "new"):
        for a, b in hows.get(how, []):
            gone = f"; {stand_in(a)}" if how == "gone" and part not in ("Definitions", "Theorems") else ""
            out += [f"**{said((a or b).name)}**, {how}{gone} ({(a or b).path[7:]})", ""]
            out += (block("old", a.text) if a else []) + (block("new", b.text) if b else [])
    return out


def head(commit, results):
    """The heading, the numbers and the renamings."""
    out = ["# Old and new, side by side", "", f"Made by `docs/design_sides.py {commit}`: what changed since that commit in types, functions, definitions and theorems.", ""]
    out += ["| part | before | the same | by the renamings alone | elsewhere or renamed | changed | gone | new |", "| --- | ---: | ---: | ---: | ---: | ---: | ---: | ---: |"]
    for part, (before, found) in results.items():
        out.append(f"| {part} | {before} | " + " | ".join(str(len(found.get(how, []))) for how in ("same", "renamed", "moved", "changed", "gone", "new")) + " |")
    out += ["", "Types are structs, enums, traits, public constants and the traits that a type has. Definitions are those of specs/. Theorems are the declarations of specs/ without a"]
    out += ["body and the `pub` ones of proofs/ (answers and invariants apart), by their statement under the headers of their modules; of a record, a data type or an abbreviation there,"]
    out += ["all of it. Private functions are named alone. Comments, layout, imports and parentheses that say nothing do not count.", "", "## Renamings", ""]
    out += ["`_` is an argument. A type with two rows was used in two ways; an item takes one of them.", "", "| crate and type | in proofs | in Rust | constructors |", "| --- | --- | --- | --- |"]
    for of, kind, rust, *variants in rows(RENAMINGS):
        out.append(f"| {of} | `{kind}` | `{rust}` | " + "; ".join("`{}` -> `{}`".format(*v.split(": ")) for v in variants) + " |")
    return out + [""]


def main(argv):
    if len(argv) > 1:
        usage("docs/design_sides.py [COMMIT]")
    commit = argv[0] if argv else read("docs/DESIGN-PASS.md").split("\n")[0]
    old, new = Side(commit), Side("")
    rules, results = rules_of(new), {}
    for part in PARTS:
        results[part] = (sum(map(len, old.items[part].values())), compared(part, old, new, rules))
    out = head(commit, results)
    for part, (_, found) in results.items():
        out += [f"## {part}", ""]
        for crate in crates():
            here = {how: [p for p in pairs if (p[0] or p[1]).path.split("/")[1] == crate] for how, pairs in found.items() if how != "same"}
            told = in_crate(part, here)
            out += [f"### {crate}", ""] * bool(told) + told
        print(part, {how: len(pairs) for how, pairs in found.items()})
    with open(os.path.join(ROOT, "docs/DESIGN-SIDES.md"), "w", encoding="utf-8") as f:
        f.write("\n".join(out).rstrip("\n") + "\n")


if __name__ == "__main__":
    main(sys.argv[1:])

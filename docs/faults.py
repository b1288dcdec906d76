#!/usr/bin/env python3
"""Faults put into the port's code and definitions, each in a copy of the repository: the prover must refuse each.

    docs/faults.py                 all of them, some minutes; prints a table, status 1 if one is not refused (docs/FAULTS.md has it)
    docs/faults.py CRATE..         those of these crates
    docs/faults.py CRATE/NAME..    these alone, and below the table what the prover said first of each

It has what stands below the crates proved once, then each fault by itself, as a must-fail edit (`rt must-fail`). Beside the list below it takes
the edits in crates/*/faults: those of docs/PROOFS.md that would make the gate too long. It is not part of ./test. Many of the list are
also put into the Rust, by tests/oracle/mutants. An edit that is refused at no proof, but since it cannot be read, fails (docs/edits.py).
"""
import glob
import os
import re
import shutil
import sys
import tempfile

sys.dont_write_bytecode = True
sys.path.insert(0, os.path.dirname(os.path.abspath(__file__)))
from edits import broken, edits, said_to
from sources import usage

# crate, name, what is wrong, old text, new text; the file is the one of src/ that has the old text
FAULTS = [
    ("record", "record_without_file", "a record passes without its file id", "le::get_u32(sector, 12) == file", "le::get_u32(sector, 12) != 0"),
    ("record", "record_without_store", "a record passes without its store id", "le::get_u64(sector, 4) == id", "le::get_u64(sector, 4) != 0"),
    ("record", "record_without_number", "a record passes without its number", "le::get_u32(sector, 16) == number", "le::get_u32(sector, 16) <= 0xffff_ffff"),
    ("commit", "other_trusted", "the other copy is trusted whatever store it is of", "    known & (theirs == crc)", "    (theirs == crc)"),
    ("commit", "stale_goes_on", "a store value that is not current is not refused", "    if !is_current(found, store) {", "    if !is_current(Current { copy: store.copy, head: store.head, ..found }, store) {"),
    ("commit", "old_copy_kept", "the store handed back names the old copy", "finished(wm, store, copy, head, free)", "finished(wm, store, store.copy, head, free)"),
    ("commit", "last_generation_wraps", "the last generation is not refused", "if own.generation == 0xffff_ffff_ffff_ffff {", "if own.generation == 0xffff_ffff_ffff_fffe {"),
    ("plan", "same_generation", "a commit does not raise the generation", "after.generation = head.generation + 1;", "after.generation = head.generation;"),
    ("plan", "same_id_again", "create does not advance the next id", "} => id + 1,", "} => id,"),
    ("plan", "cursor_stays", "the cursor is not moved behind the chunk taken", "} => (chunk + 1) % head.chunks,", "} => chunk % head.chunks,"),
    ("plan", "mark_in_new_sector", "the partial mark is lost where it is in another table sector", "(partial & (k == 8 + (last as usize) / 128))", "(partial & (k == 8 + (next as usize) / 128))"),
    ("plan", "links_left", "a removed file keeps its links", "Edit::Remove { slot } => (k == slot / 8) | (8 <= k),", "Edit::Remove { slot } => (k == slot / 8) | (9 <= k),"),
    ("format", "over_newest", "format writes over the newest copy", "make(volume, medium, copy_for(c), head)", "make(volume, medium, 1 - copy_for(c), head)"),
    ("header", "mark_kept", "format's first header keeps the last letter of its magic", "    runs::put_zeros(sector, 0, 16);", "    runs::put_zeros(sector, 0, 12);"),
    ("format", "id_taken_again", "format may take an id that a copy has", "let bad = (id == 0) | has_id(c, id);", "let bad = (id == 0) | (has_id(c, id) & false);"),
    ("remove", "writer_left_open", "a removed file stays open", "    if open.id == id { None } else { writer }", "    if open.id != id { None } else { writer }"),
    ("files", "spares_the_first", "create's rollover spares the file with id 1", "&bytes[0..n], None);", "&bytes[0..n], Some(1));"),
    ("directory", "name_unseen", "create's look does not see the file of the name", "            exists: true,", "            exists: seen.exists,"),
    ("reopen", "writes_on", "a chunk that was begun is written further", "    Tail::Reopened(n)", "    Tail::At(n)"),
    ("reopen", "one_record_less", "the last valid record is not counted", "return Ok(index + 1);", "return Ok(index);"),
    ("record", "number_in_chunk", "records are numbered anew in each chunk", "    position * size + index", "    index"),
    ("append", "bytes_again", "the bytes of a record are written again with the next", "self.standing(self.chunk, self.position, next, 0)", "self.standing(self.chunk, self.position, next, self.fill)"),
    ("table", "first_free", "the free chunk is the first, whatever the cursor", "cursor <= b || i < cursor", "cursor <= b || i <= cursor"),
    ("table", "clears_next_slot", "links of another slot are cleared", "if ((owner % 128) as usize) == slot + 1 {", "if ((owner % 128) as usize) == slot {"),
    ("directory", "older_spared", "files older than the open one are spared too", "(Some(file.id) != spared)", "(Some(file.id.max(spared.unwrap_or(0))) != spared)"),
]


def edit_text(file, old, new):
    lines = [f"file: {file}"]
    for a, b in zip(old.split("\n"), new.split("\n")):
        if a != b:
            lines += [f"old: {a}", f"new: {b}"]
    return "\n".join(lines) + "\n"


def source_of(crate, old):
    """The file of the crate's code that has this text, once; and how often the text is there."""
    counts = {p: open(p, encoding="utf-8").read().count(old) for p in glob.glob(f"crates/{crate}/src/*.rt")}
    return next((p[len(f"crates/{crate}/") :] for p, n in counts.items() if n), None), sum(counts.values())


def told(path, name):
    """What an edit is about: the comment at its top, if it has one, and its name."""
    first = open(path, encoding="utf-8").readline()
    return f"{first[2:].strip()} (`{name}`)" if first.startswith("# ") else f"`{name}`"


def main():
    root = os.path.dirname(os.path.dirname(os.path.abspath(__file__)))
    os.chdir(root)
    asked = sys.argv[1:]
    kept = list(edits("faults"))
    known = {a for crate, name, *_ in [*FAULTS, *kept] for a in (crate, f"{crate}/{name}")}
    if unknown := [a for a in asked if a not in known]:
        usage("docs/faults.py [CRATE | CRATE/NAME]..; no fault of that name: " + " ".join(unknown))
    wanted = [f for f in FAULTS if not asked or f[0] in asked or f"{f[0]}/{f[1]}" in asked]
    further = [e for e in kept if not asked or e[0] in asked or f"{e[0]}/{e[1]}" in asked]
    with tempfile.TemporaryDirectory() as scratch:
        # rt begins with what checks here have kept, wherever that lies
        shutil.copytree("crates", os.path.join(scratch, "crates"), ignore=shutil.ignore_patterns("out", "must-fail"))
        shutil.copy("crates.txt", scratch)
        for crate, name, _, old, new in wanted:
            file, count = source_of(crate, old)
            if count != 1:
                print(f"{crate} {name}: the text is there {count} times, not once")
                continue
            folder = os.path.join(scratch, "crates", crate, "must-fail")
            os.makedirs(folder, exist_ok=True)
            with open(os.path.join(folder, name + ".edit"), "w", encoding="utf-8") as f:
                f.write(edit_text(file, old, new))
        for crate, _, path in further:
            folder = os.path.join(scratch, "crates", crate, "must-fail")
            os.makedirs(folder, exist_ok=True)
            shutil.copy(path, folder)
        crates = sorted({f[0] for f in [*wanted, *further]})
        said, _ = said_to(scratch, *crates)
        rows = [(crate, name, f"{what} (`{name}`)") for crate, name, what, _, _ in wanted]
        rows += [(crate, name, told(path, name)) for crate, name, path in further]
    refused = 0
    print("| crate | fault | the prover |\n|---|---|---|")
    for crate, name, what in rows:
        verdict = said.get((crate, name), "no answer")
        first = re.search(r": (?:note: )?(?:\./)?(\S+:\d+:\d+): ", verdict)
        if verdict.startswith("refused") and (why := broken(verdict)):
            verdict = f"NO PROOF REFUSES IT: {why}"
        refused += verdict.startswith("refused")
        print(f"| {crate} | {what} | {'refused, first at ' + first.group(1) if verdict.startswith('refused') and first else verdict} |")
    print(f"\n{refused} of {len(rows)} refused")
    for crate, name in (k for k in said if "/".join(k) in asked):
        print(f"\n{crate}/{name}:\n  {said[crate, name]}")
    return 0 if refused == len(rows) else 1


if __name__ == "__main__":
    sys.exit(main())

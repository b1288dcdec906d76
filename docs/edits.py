"""Edits that the check must refuse, as the scripts read them: crates/*/must-fail, crates/*/faults and the list of docs/faults.py.

`rt must-fail` and `rt ci` say of each edit what the prover said first. They call an edit bad that cannot be applied, compiled or read, but count as
refused also one that only takes a name away, one whose definition does not fit its type, and one at which the prover only met a limit of its own. Such
an edit shows nothing. Here an edit counts only where it is refused at a proof: the place that is shown stands below proofs/, or is a goal of a function
that is not proved, or the invariant of a value that it makes (no file of specs/ holds a proof, so an error there is never a promise that fails), and rt does not say that it is only for a name or
a limit.

A goal is named by the condition above it. So an edit of a condition gives its goal another name, and an answer by the old one is not read. In the
functions that eight edits of must-fail/ change so, no answer goes by a condition's name: a law or definition is named on the function, and the other answers take the
condition's fact by a tactic. The edits of faults/ that are so stand in docs/PORT.md, "Goals that an edit gives another name", and were tried by hand; so
is a new one to be."""
import glob
import os
import re
import subprocess

LINE = re.compile(r"(?:rt: )?must-fail (\w+)/(\S+)\.edit: (.*)")
REFUSED = re.compile(r"refused, as it must be(?: \((.*?)\))?(?:: (.*))?$")
PROOF = re.compile(r"(?:\./)?proofs/\S+:\d+:\d+: error|note: src/\S+:\d+:\d+: it is not proved that |note: src/\S+:\d+:\d+: `search` found no proof \(`invariant_of-")


def said_in(text):
    """What rt said of each edit in what it printed: by crate and name."""
    return {(m[1], m[2]): m[3] for m in map(LINE.match, text.split("\n")) if m}


def said_to(place, *crates):
    """What rt says of each edit of the repository at `place`, of these crates or of all, and its whole answer. What it tried before it does not try again."""
    run = subprocess.run(["rt", "must-fail", *crates], cwd=place, stdin=subprocess.DEVNULL, capture_output=True, text=True)
    return said_in(run.stdout + run.stderr), run.stdout + run.stderr


def broken(said):
    """Why an edit of which rt says this shows nothing; None where it was refused at a proof."""
    if said is None:
        return "not tried"
    m = REFUSED.match(said)
    if not m:
        return said[:160]
    if m[1]:
        return "no proof fails for its own sake: %s" % said[:160]
    if not (m[2] and PROOF.match(m[2])):
        return "broken at %s" % (m[2] or "no place that rt shows")[:160]
    return None


def edits(kind):
    """The edits of all crates in must-fail or in faults: crate, name, path."""
    for path in sorted(glob.glob("crates/*/%s/*.edit" % kind)):
        yield path.split("/")[1], os.path.basename(path)[: -len(".edit")], path


def misplaced(path):
    """What is wrong with the text of an edit: each old text must stand once in its file, of src or specs, as the pairs before it left that."""
    texts, file, old, count = {}, None, None, 0
    for line in open(path, encoding="utf-8").read().split("\n"):
        if line.startswith("file: "):
            file = os.path.join(path.split("/must-fail/")[0].split("/faults/")[0], line[6:])
            if not re.search(r"/(src|specs)/", file) or not os.path.isfile(file):
                yield "%s: no file of src or specs: %s" % (path, line[6:])
                return
            texts.setdefault(file, open(file, encoding="utf-8").read())
        elif line.startswith("old: "):
            old = line[5:]
        elif line.startswith("new:"):
            new, found = line[4:].removeprefix(" "), texts[file].count(old) if file and old else 0
            if found != 1:
                yield "%s: its old text stands %d times in its file: %s" % (path, found, old)
            elif new == old:
                yield "%s: changes nothing: %s" % (path, old)
            else:
                texts[file] = texts[file].replace(old, new)
            old, count = None, count + 1
    if not count:
        yield "%s: it has no pair of old and new" % path

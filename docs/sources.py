"""The sources as these scripts read them: files, their imports, and what they declare."""
import os
import re
import sys

ROOT = os.path.dirname(os.path.dirname(os.path.abspath(__file__)))
WORD = r"[^\s(){}\[\];,.:|λ]+"
MODIFIERS = r"(?:abbrev |unfoldable |pub )*"
CHAIN = re.compile(rf"((?:^|[\s)\]}}])\.)?({WORD}(?:\.{WORD})*)")  # `name`, `c.name.name`, `(f x).name`
DECLARED = re.compile(rf"^(\s*)({MODIFIERS})(?:(record|data) )?({WORD})(?=\s|$)(.*)$")
IMPORT = re.compile(r"^\s*(?:ghost )?use ([^{]+?)(?:\.\{(.*)\};?| as (\S+?);?|;)$")
KEYWORDS = {"use", "let", "in", "module", "where", "unfolding", "pub", "mod", "record", "data", "ghost"}


class File:
    def __init__(self, path):
        self.path = path
        with open(os.path.join(ROOT, path), encoding="utf-8") as f:
            self.lines = f.read().split("\n")
        self.mark = "//" if path.endswith(".rt") else "--"
        self.code = [re.sub(rf"(^|\s){self.mark}(\s.*|$)", "", line) for line in self.lines]
        self.imports = [m.groups() for m in map(IMPORT.match, self.code) if m]
        self.bare = ["" if IMPORT.match(line) else line for line in self.code]

    def words(self, lines=None):
        """The words of some lines, or of all. A field that is asked for (`c.name`, `(f x).name`) is none; a name behind an import's own (`goal.name`) is one."""
        called = {alias for _, _, alias in self.imports if alias}
        found = set()
        for k in range(len(self.bare)) if lines is None else lines:
            for behind, chain in CHAIN.findall(self.bare[k]):
                first, *rest = chain.split(".")
                if not behind:
                    found.update([first, *(rest[:1] if first in called else [])])
        return found

    def comment_above(self, k):
        """The lines of the comment that stands right above line k."""
        first = k
        while first > 0 and self.lines[first - 1].lstrip().startswith(self.mark):
            first -= 1
        return range(first, k)


def usage(how):
    """Ends a script that was called in another way than this."""
    print("usage:", how, file=sys.stderr)
    sys.exit(2)


def files(place, ending):
    for folder, _, names in sorted(os.walk(os.path.join(ROOT, place))):
        if "/out/" in folder + "/":
            continue
        for name in sorted(names):
            if name.endswith(ending):
                yield File(os.path.relpath(os.path.join(folder, name), ROOT))


def indent(line):
    return len(line) - len(line.lstrip())


def block(f, k, deep, name):
    """The lines of a declaration: down to the next line as far left that is not about it."""
    end = k + 1
    while end < len(f.bare):
        line = f.bare[end]
        words = re.sub(rf"^\s*{MODIFIERS}", "", line).split()
        if words and indent(line) <= deep and words[0] not in (name, "unfolding") and name not in words[:2]:
            break
        end += 1
    while end > k + 1 and not f.bare[end - 1].strip():
        end -= 1
    return range(k, end)


def declarations(f):
    """Definitions and laws, of a where too, each as name, lines, pub; not the fields of a record, nor the cases of a data type."""
    inside = None  # the indent of a record or data type whose members these lines are
    for k, line in enumerate(f.bare):
        if not line.strip() or line.lstrip().startswith(("let ", "(", "→", "∷")):
            continue
        if inside is not None and indent(line) > inside:
            continue
        inside = None
        m = DECLARED.match(line)
        if not m:
            continue
        kind, name, rest = m.group(3), m.group(4), m.group(5)
        if kind:
            if line.rstrip().endswith("where"):
                inside = indent(line)
            if "{" not in rest.split(":")[0]:
                yield name, block(f, k, indent(line), name), "pub" in m.group(2)
        elif re.match(r"\s*:(\s|$)", rest) and name not in KEYWORDS:
            yield name, block(f, k, indent(line), name), "pub" in m.group(2)


def module(path):
    """How others import it: crates/a/specs/B.antt is Rattle.a.specs.B."""
    return "Rattle." + path[len("crates/") : -len(".antt")].replace("/", ".")


def crates():
    """The crates of crates.txt in its order: name -> kind ("" or "staticlib") and the libraries that it names."""
    rows = re.findall(r"^(\w+)(?: +(staticlib))? *:(.*)", read("crates.txt"), re.M)
    return {name: (kind, used.split()) for name, kind, used in rows}


def read(path):
    with open(os.path.join(ROOT, path), encoding="utf-8") as f:
        return f.read()


def newest(place):
    """When a file of a folder was changed last; what rt makes in out/ is none of them."""
    found = []
    for folder, inside, names in os.walk(os.path.join(ROOT, place)):
        inside[:] = [i for i in inside if i != "out"]
        found += [os.path.getmtime(os.path.join(folder, name)) for name in names]
    return max(found)


def imported(items):
    """Names of an import, each with what it is called there."""
    for item in (items or "").split(","):
        name, _, called = item.strip().partition(" as ")
        yield name, called or name

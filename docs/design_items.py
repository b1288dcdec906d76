"""The functions, structs and enums of crates/*/src/*.rt, and what design_places.py asks of them: bodies, loops, matches, literals, facts of clauses."""
import io
import re
import subprocess
import tarfile
from collections import Counter

from sources import ROOT, files

KEYWORDS = set("as break else false for fn if impl in let loop match mut return self true while".split())


class Item:
    """A function, struct or enum: its parts as text, without comments."""

    def __init__(self, path, at, said, owner, head, body, above):
        self.path, (self.line, self.first), (self.kind, self.name), self.body, self.above = path, at, said, body, above
        self.crate, self.title = path.split("/")[1], f"{owner}::{self.name}" if owner else self.name
        self.owner, self.contract, self.answer, self.params = owner, "", "", []
        if self.kind == "fn":
            start = re.search(r"\n\s*(?:requires|ensures)\b", head)
            self.contract = head[start.start() :] if start else ""
            head = head[: start.start()] if start else head
            at = re.search(rf"fn {self.name}(?:<.*?>(?=\())?\(", head, re.S).end()
            end = closing(head, at - 1)
            given = [part.strip().removeprefix("mut ").partition(": ") for part in parts(head[at:end])]
            self.params = [(n.lstrip("&").removeprefix("mut "), t or owner) for n, _, t in given]
            self.answer = head[end + 1 :].replace("->", "").strip()

    def types(self):
        return [t for _, t in self.params]

    def members(self):
        """Fields of a struct as (name, type), variants of an enum as (name, payload)."""
        rows = [" ".join(p.split()) for p in parts(self.body)]
        found = [re.match(r"(?:#\[.*?\] )*(?:pub(?:\(crate\))? )?(?!ghost\b)(\w+):? ?(.*)", p) for p in rows]
        return [m.groups() for m in found if m]


def closing(text, at):
    """Where the bracket at a place is closed."""
    deep = 0
    for k in range(at, len(text)):
        deep += (text[k] in "([{") - (text[k] in ")]}")
        if not deep:
            return k
    return len(text)


def parts(text, mark=","):
    """A text split at the marks outside brackets."""
    found, deep, last = [], 0, 0
    for k, c in enumerate(text):
        deep += (c in "([{") - (c in ")]}")
        if c == mark and not deep:
            found.append(text[last:k])
            last = k + 1
    return [p for p in found + [text[last:]] if p.strip()]


def opening(lines, k, left):
    """The line that opens the body of the item at line k; none where it has no body."""
    for e in range(k, len(lines)):
        outer = lines[e].startswith(left) and not lines[e][len(left) :].startswith(" ")
        if outer and lines[e].endswith("{"):
            return e
        if lines[e].endswith(";"):
            return None


def items(path, text):
    plain, owner = text.split("\n"), ""
    lines = [re.sub(r"(^|\s)//.*$", "", line).rstrip() for line in plain]
    for k, line in enumerate(lines):
        if m := re.match(r"impl(?:<.*?>)? (?:.* for )?(\w+)", line):
            owner = m[1]
        elif line == "}":
            owner = ""
        m = re.match(r'(\s*)(?:pub(?:\(crate\))? )?(?:extern "C" )?(fn|struct|enum) (\w+)', line)
        start = opening(lines, k, m[1]) if m else None
        if start is None:
            continue
        end = next(e for e in range(start, len(lines)) if lines[e] == m[1] + "}")
        above = next(a for a in range(k, -1, -1) if a == 0 or not re.match(r"\s*(//|#\[)", plain[a - 1]))
        head = "\n".join(lines[k : start + 1]).rstrip("{ \n")
        yield Item(path, (k + 1, start + 2), m.groups()[1:], owner if m[1] else "", head, "\n".join(lines[start + 1 : end]), " ".join(plain[above:k]))


def tree(commit):
    """The sources and the proofs, path -> text, of a commit or as they stand."""
    if not commit:
        return {f.path: "\n".join(f.lines) for ending in (".rt", ".antt") for f in files("crates", ending)}
    made = subprocess.run(["git", "-C", ROOT, "archive", commit, "crates"], capture_output=True, check=True).stdout
    with tarfile.open(fileobj=io.BytesIO(made)) as t:
        return {m.name: t.extractfile(m).read().decode() for m in t if m.name.endswith((".rt", ".antt"))}


def normal(body):
    """A body with its names numbered in the order in which they come, and its constants and layout gone."""
    seen, said = {}, []
    for word in re.findall(r"\"[^\"]*\"|b?'.'|\w+|[^\w\s]", re.sub(r",(\s*[)}\]])", r"\1", body)):
        if re.match(r"\d|\"|b?'", word):
            word = "#"
        elif re.match(r"\w", word) and word not in KEYWORDS:
            word = f"n{seen.setdefault(word, len(seen))}"
        said.append(word)
    return tuple(said)


def thin(i):
    """A function that only calls another."""
    return i.kind == "fn" and len(parts(i.body, ";")) == 1 and re.match(r"\s*[\w:.&]+\(", i.body)


def loops(f):
    """The loops of a function: its line, the counter of a `for` over a range (none of another), and the body."""
    for m in re.finditer(r"\b(while|for (\w+) in) ([^{]*)\{\n", f.body):
        ranged = m[1] == "while" or ".." in m[3]
        yield f.first + f.body.count("\n", 0, m.start()), m[1] == "while", m[2] if ranged else None, f.body[m.end() : closing(f.body, m.end() - 2)]


def indexed(counter, body):
    """Whether a loop takes elements or pieces by its counter, or by a number made of it; one end of a slice is neither."""
    made = {counter}
    for name, said in re.findall(r"let (?:mut )?(\w+) = ([^;]*);", body):
        if made & set(re.findall(r"\w+", said)) and not re.search(r"\w\(", said):
            made.add(name)
    taken = [inside for inside in re.findall(r"\w\[([^\]]*)\]", body) if not re.fullmatch(r"0\.\.\w+|\w+\.\.", inside)]
    return any(made & set(re.findall(r"\w+", inside)) for inside in taken)


def arms(body):
    """The arms of the first match of a body: pattern and value; and what is matched."""
    m = re.search(r"\bmatch ([^{]+?) \{", body)
    if not m:
        return "", []
    inside = body[m.end() : closing(body, m.end() - 1)]
    found = re.findall(r"^\s*([^=\n{}]*(?:\{[^}]*\}[^=\n]*)?) => (.*?)(?=,\s*\n\s*[\w\"(][^=]*?=> |\}\n\s*[\w(][^=]*?=> |\Z)", inside, re.S | re.M)
    return m[1], [(p.strip(), v.strip().rstrip(",")) for p, v in found]


def copied(body):
    """Struct literals that take two or more fields of one value: the struct, the value and how many; none with `..`."""
    known = dict(re.findall(r"let (\w+) = (\w+)\.\w+;", body))
    for m in re.finditer(r"\b([A-Z]\w*(?:::[A-Z]\w*)?) \{", body):
        end = closing(body, m.end() - 1)
        if re.match(r"\s*(=>|=[^=]|else)", body[end + 1 :]):
            continue
        of = Counter()
        for part in map(str.strip, parts(body[m.end() : end])):
            field = re.fullmatch(r"(?:\w+: )?(\w+)(?:\.\w+)?", part)
            value = re.fullmatch(r"\w+: (\w+)\.\w+", part)
            of.update([value[1]] if value else [known[field[1]]] if field and field[1] in known and "." not in part else [])
        yield from ((m[1], value, many) for value, many in of.items() if many > 1)


def facts(f, kind):
    """The facts of the clauses of a kind, each parameter as its type, whether it is asked of the value before or after."""
    for m in re.finditer(rf"\n\s*{kind}\b(?: \w+)? \{{", f.contract):
        text = " ".join(f.contract[m.end() : closing(f.contract, m.end() - 1)].split())
        for fact in parts(text, "×"):
            fact = fact.strip()
            fact = fact[1:-1] if fact[0] == "(" and closing(fact, 0) == len(fact) - 1 else fact
            for name, kind_of in sorted(f.params, key=lambda p: -len(p[0])):
                kind_of = re.sub(r"&|mut ", "", kind_of)
                fact = re.sub(rf"(?<![\w.]){name}(?:\.(?:old|now|new))?(?!\w)", f"‹{kind_of}›", fact)
            yield fact

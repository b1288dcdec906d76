"""The items of design_sides.py, types, functions, definitions and theorems of crates/, and the form in which two of them are compared."""
import re
from collections import defaultdict
from types import SimpleNamespace

from design_items import items, tree
from sources import DECLARED, IMPORT, MODIFIERS, declarations, indent

BOUNDARY = re.compile(r"[^\w\s(){}\[\]'◌⊥⊤_.\"]+|\.|pub|in|where|⏎")
TOKEN = re.compile(r"[(){}\[\];,|]|λ|\.(?=\s|$)|[^\s(){}\[\];,|λ]+?(?=\.?(?:[\s(){}\[\];,|λ]|$))|\S")
RUST = re.compile(r"\w+|->|::|\S")
TYPE = re.compile(r"^((?:#\[[^\n]*\]\n)*)((?:pub(?:\(crate\))? )?(struct|enum|trait) (\w+)[^;{\n]*(?:;|\{\n.*?^\})|pub const (\w+)[^;\n]*;|impl[^\n]* for [^\n]*(?= \{))", re.M | re.S)
PARTS = ("Types", "Public functions", "Private functions", "Definitions", "Theorems")


class Side:
    """A tree of sources: its items by part, and the types of each crate."""

    def __init__(self, commit):
        self.files = {p: re.sub(rf"(^|[ \t]){'//' if p.endswith('.rt') else '--'}([ \t].*|$)", "", t, flags=re.M) for p, t in sorted(tree(commit).items())}
        self.types = {(p.split("/")[1], m[4]) for p, t in self.files.items() if p.endswith(".rt") for m in TYPE.finditer(t) if m[4]}
        self.items = {part: defaultdict(list) for part in PARTS}
        for path, text in self.files.items():
            area = path.split("/")[2]
            if path.endswith(".rt") and area == "src":
                rust_items(self, path, text)
            elif area in ("specs", "proofs") and not re.search(r"/proofs/.+/(Answers|Invariants)\.antt$", path):
                antt_items(self, path, text)

    def add(self, part, path, name, text, names, base=-1):
        self.items[part][path.split("/")[1], name].append(SimpleNamespace(path=path, name=name, text=text, names=names, base=base))


def known(side, path, text):
    """What the words that a file imports stand for: types and constructors as `crate.Type` and `crate.Type.Constructor`."""
    crate, found = path.split("/")[1], {}
    for line in text.split("\n"):
        if m := re.match(r"\s*(?:pub )?use (\w+)(?:::\w+)*::(?:\{(.*)\}|(\w+));", line):
            for name in re.split(r",\s*", m[2] or m[3]):
                home = m[1] if (m[1], name) in side.types else crate
                found[name] = f"{home}.{name}"
        if not (m := IMPORT.match(line)):
            continue
        told = re.match(r"Rattle\.(\w+)\.specs\.declared\.(?:[a-z]\w*\.)*([A-Z]\w*)(\.TheVariants)?$", m[1].strip())
        of = f"{told[1]}.{told[2]}" if told else ""
        if m[3] and told and told[3]:
            found[m[3] + "."] = of + "."
        for name in re.split(r",\s*", m[2] or ""):
            name, _, called = name.strip().partition(" as ")
            found[called or name] = f"{of}.{name}" if told and told[3] else of or name
    return found


def rust_items(side, path, text):
    names = known(side, path, text)
    crate = path.split("/")[1]
    names = {**{t: f"{c}.{t}" for c, t in side.types if c == crate}, **names}
    lines, bare = text.split("\n"), re.sub(r"\n(\s*\n)+", "\n", text)
    for m in TYPE.finditer(bare):
        side.add("Types", path, m[4] or m[5] or m[2].strip(), m[0].strip(), names)
    for i in (i for i in items(path, text) if i.kind == "fn"):
        head = [line.rstrip() for line in lines[i.line - 1 : i.first - 1] if line.strip()]
        around = [line for line in lines[: i.line] if re.match(r"impl\b|\}", line)][-1:]
        public = re.match(r"\s*pub ", head[0]) or (head[0][0] == " " and around and re.search(r"^impl.* for ", around[0]))
        head = ["#[unsafe(no_mangle)]"] * ("no_mangle" in i.above) + head
        side.add("Public functions" if public else "Private functions", path, i.title, "\n".join(head).rstrip("{ \n"), names)


def whole(bare, k):
    """The lines of the declaration at line k."""
    name, deep, end = DECLARED.match(bare[k])[4], 0, k
    while True:
        deep += sum(bare[end].count(c) for c in "([{") - sum(bare[end].count(c) for c in ")]}")
        end += 1
        if end == len(bare):
            break
        words = re.sub(rf"^\s*{MODIFIERS}", "", bare[end]).split()
        if words and not deep and indent(bare[end]) <= indent(bare[k]) and name not in words[:2] and words[0] != "unfolding":
            break
    return [line for line in bare[k:end] if line.strip()]


def stated(lines, name):
    """The lines of a declaration before its proof."""
    for k, line in enumerate(lines[1:], 1):
        if indent(line) == indent(lines[0]) and re.match(rf"\s*(unfolding\b|{re.escape(name)}(\s|$))|[^:]*\s{re.escape(name)}\s", line):
            return lines[:k]
    return lines


def antt_items(side, path, text):
    """Definitions whole, and of theorems the statement, under the headers of the modules that give them their variables."""
    names, bare = known(side, path, text), ["" if IMPORT.match(line) else line for line in text.split("\n")]
    found, around, started = [], [], {k.start: (n, p) for n, k, p in declarations(SimpleNamespace(bare=bare))}
    started |= {k: (m[4], "pub" in m[2]) for k, m in enumerate(map(DECLARED.match, bare)) if m and m[3]}
    for k, line in enumerate(bare):
        if line.strip():
            around = [m for m in around if m[0] < indent(line)]
        if re.match(r"\s*module\b", line):
            end = next(e for e in range(k, len(bare)) if bare[e].endswith("where"))
            around.append((indent(line), bare[k : end + 1]))
        elif k in started:
            lines = whole(bare, k)
            plain = re.match(r"\s*(?:pub )?(?!record\b|data\b|abbrev\b|unfoldable\b)", line)
            found.append((*started[k], lines, plain, [h for _, header in around for h in header]))
    if "/specs/" in path:
        for name, public, lines, _, header in found:
            theorem = stated(lines, name) == lines and not re.match(rf"\s*{MODIFIERS}(record|data) ", lines[0])
            side.add("Theorems" if theorem else "Definitions", path, name, "\n".join(header + lines), names, indent(lines[0]))
        return
    told = "\n".join(line for name, p, lines, _, header in found if p for line in [*header, *stated([lines[0].replace(name, "", 1), *lines[1:]], name)])
    said = set(re.findall(r"[^\s(){}\[\];,.:|]+", told))
    for name, public, lines, plain, header in found:
        value = not plain or not re.search("[≡≤<≢⊥×⊎]", " ".join(stated(lines, name)))
        if public or (name in said and value):
            side.add("Theorems", path, name, "\n".join(header + (stated(lines, name) if plain and name not in said else lines)), names, indent(lines[0]))


def nodes(text, names, base=-1):
    """A text of proofs as a tree: words, and groups that begin with their bracket. A line as far left as the base begins with a mark."""
    marked = "\n".join("⏎ " + line if indent(line) <= base else line for line in text.split("\n"))
    stack = [[""]]
    for word in TOKEN.findall(marked):
        if word in "([{":
            stack.append([word])
        elif word in ")]}":
            group = stack.pop()
            stack[-1].append(group)
        else:
            first, dot, rest = word.partition(".")
            stack[-1].append(names[first + "."] + rest if rest[:1].isupper() and first + "." in names else names.get(word, word))
    return stack[0]


def edge(row, k, marks=None):
    """Whether nothing that binds stands at a place of a row."""
    if k in (0, len(row)):
        return True
    return isinstance(row[k], str) and bool(row[k] in marks if marks else BOUNDARY.fullmatch(row[k]))


def tidy(row):
    """A tree without the parentheses that say nothing: around one word, around a call beside operators, around all between two marks."""
    row, k = [row[0]] + [tidy(n) if isinstance(n, list) else n for n in row[1:]], 1
    while k < len(row):
        node = row[k]
        if isinstance(node, list) and node[0] == "(":
            call = all(isinstance(n, list) or not (BOUNDARY.fullmatch(n) or n in ("λ", "let", "rw", ",", ";")) for n in node[1:])
            free = k + 1 == len(row) or not re.match(r"\.\w", str(row[k + 1]))
            loose = call and free and edge(row, k - 1) and edge(row, k + 1)
            between = not {",", "λ", "let", "rw"} & {n for n in node if isinstance(n, str)} and edge(row, k - 1, ",;=⏎") and edge(row, k + 1, ",;⏎")
            if len(node) == 2 or loose or between:
                row[k : k + 1] = node[1:]
                continue
        k += 1
    return row


def renamed(row, rules):
    """A tree with the renamings made, each as a group of its own."""
    made, k = [row[0]], 1
    while k < len(row):
        node = row[k]
        made.append(renamed(node, rules) if isinstance(node, list) else node)
        form = rules.get(node) if isinstance(node, str) else None
        if form:
            many = str(form).count("'_'")
            given = [renamed(n, rules) if isinstance(n, list) else renamed(["", n], rules)[1] for n in row[k + 1 : k + 1 + many]]
            if len(given) == many:
                made[-1] = filled(form, iter(given))
                k += many
        k += 1
    return made


def filled(form, given):
    return [filled(n, given) if isinstance(n, list) else next(given) if n == "_" else n for n in form]


def frozen(row):
    return tuple(frozen(n) if isinstance(n, list) else n for n in row)


def normal(part, item, rules=({}, {})):
    """What is compared: the words of Rust, and the tree of each clause or of the whole declaration; the item's own name stands as `@self`."""
    names = {**item.names, item.name.split("::")[-1]: "@self"}
    if part in ("Definitions", "Theorems"):
        return frozen(tidy(renamed(nodes(item.text, names, item.base), rules[0])))
    head, *clauses = re.split(r"\n\s*(?=(?:requires|ensures)\b)", re.sub(r",(?=\s*[)}\]])", "", item.text))
    said = [names.get(word, word) for word in RUST.findall(head)]
    told = [n for word in said for n in rules[1].get(word, [word])]
    return tuple(told), tuple(frozen(tidy(renamed(nodes(c, names), rules[0]))) for c in clauses)

#!/usr/bin/env python3
"""The places of each point of docs/DESIGN-PASS.md, counted in crates/*/src/*.rt by plain rules over the text; of point 8 the proofs in numbers.

    docs/design_places.py                    of the tree as it stands; a line for each place: its point, file and line, function or type, what it is
    docs/design_places.py COMMIT             of a commit
    docs/design_places.py [COMMIT] --counts  the numbers alone

A place may stand under two points. What no rule over the text finds, and a reader does, is in the list READ below, each with its reason; of that list
a row is printed while two of its names (or its only one) still stand in src/."""
import re
import sys
from collections import Counter, defaultdict
from itertools import combinations

sys.dont_write_bytecode = True
from design_items import arms, copied, facts, indexed, items, loops, normal, parts, thin, tree
from sources import usage

# a bool parameter, and the parameters that mean something only where it is set
GUARDED = {"keeping": {"keep"}, "partial": {"records", "last", "link"}, "rolls": {"dir"}, "known": {"theirs"}, "enters": {"k"}}
READ = [  # point, crate, names, why
    (1, "words", "Parsed", "Other says that the line is none, as None does"),
    (1, "bridge_write", "gone_length", "answers 0 where no name is there, as Gone.length has it"),
    (1, "handles", "open_id", "answers 0 where no file is open, beside is_open"),
    (2, "le", "get_u16 get_u32 get_u64", "one read for each width"),
    (2, "le", "put_u16 put_u32 put_u64", "one write for each width"),
    (2, "names", "name_ok dotted", "one pass over the segments, by the flag `fresh`"),
    (2, "names", "name_ok point_ok", "a length, then every byte plain"),
    (2, "freemap", "first_from none_from", "the word of the start, then the words after it"),
    (2, "freemap", "first_word none_after", "the words from one on"),
    (2, "runs commit", "same same_crcs", "two runs compared, of bytes and of checksums"),
    (2, "runs bridge", "put_bytes put_words", "a run put into another, of bytes and of words"),
    (2, "runs store", "put_zeros clear_counts", "zeros put, as bytes and as counts"),
    (2, "medium header record", "write_sector zero_sector write_head write_unmarked write_record", "a write is taken from those left, then one sector is put"),
    (2, "medium", "readable read_sector", "the test of a sector, without and with the copy"),
    (2, "handles commit", "check read_body", "a body sector's checksum, where it stands and in a copy"),
    (2, "handles", "table body", "the sectors of the table, without and with the directory's 8"),
    (2, "header", "is_ours is_foreign is_damaged", "one test for each kind of copy"),
    (2, "directory", "find find_id look oldest list_rows", "one walk over the 64 slots, another step in each"),
    (2, "table", "locate chain count walk_free walk_count map_at", "one walk over the links, another step in each"),
    (2, "table", "free_chunk free_count", "by the map, or by a walk where it is unfit"),
    (2, "reader", "Found Next", "the same variants, with the count of blank sectors and without"),
    (2, "reader", "next advance below", "what follows, with a limit and without"),
    (2, "reader", "passed_end is_last limit_of end_ok", "one match on End each, as on an Option"),
    (2, "plan", "plain_link partial_link", "a link without and with its records"),
    (2, "plan", "put_file clear_file put_link", "done only where the sector is the one"),
    (2, "plan", "next_after cursor_after", "one match on the edit each, for two fields of one header"),
    (2, "format header", "copy_for newest choice", "which copy is newest, asked three times"),
    (2, "commit format append files store points", "refused stopped finished as_given not_listed no_reader no_upto not_set", "an answer made for a refusal, or for none"),
    (2, "append reader", "check", "refusals 3 and 11 of an appender and of a reader"),
    (2, "append files", "rolled roll", "the oldest file goes, and its answer is taken apart"),
    (2, "append", "put put_run put_all", "one promise, by one run or many"),
    (2, "store points", "asked", "refusals 3 and 1 of a call"),
    (2, "store", "create open_append", "admitted, then the rollover, then the call"),
    (2, "points", "look end_of", "one walk over a file, with a point sought and without"),
    (2, "points", "told_by up_to", "both arms make the same answer but for one field"),
    (2, "words", "alone with_one with_two", "a word compared with the known ones"),
    (2, "session", "format_line create_line delete_line list_line flushed", "the session made anew around what a call handed back"),
    (2, "session", "append_line sync_line", "the same two refusals first"),
    (2, "bridge bridge_write", "code count_code found_code next_code numbered_code gone_code room_code", "0 or the number of a refusal, for each answer"),
    (2, "bridge bridge_write", "count_words found_words next_words numbered_words gone_words room_words", "an answer as a row, zeros where it is refused"),
    (2, "bridge_write", "tail_kind tail_count", "one match on the tail each, for two numbers of one row"),
    (2, "medium firmware bridge bench_port session", "medium_of medium_in port_append_times start allowed", "a medium record made of its numbers"),
    (2, "firmware", "store_delete store_list", "tested, mounted, called, coded"),
    (4, "header", "encode decode", "a header to the bytes of its sector and back"),
    (4, "directory", "put_entry decode_entry", "an entry to its bytes and back"),
    (4, "table", "put_link link_of", "a link to its two numbers and back"),
    (4, "bridge checksum", "flag narrow wide", "a bool to a number, a number to another width"),
    (4, "decimal", "read plain", "a number read from its digits"),
    (4, "directory", "free_seen", "a Seen made with one field of the one before"),
    (5, "directory remove", "oldest remove_oldest", "keeping and keep"),
    (5, "store session", "open_fine admitted rollover_of create open_append create_line", "rolls and dir"),
    (5, "commit header format", "finished taken write_head write_unmarked zero_body make", "a copy and its header"),
    (5, "plan commit", "apply edited write_body_sector write_body rewrite commit", "an edit, and the name that only one kind of edit has"),
    (5, "directory", "Slot Old older named is_in", "the slot, id and length of a file found"),
    (5, "points marks", "Mark Sight Place Ended mark line", "a file's id and the number of a record"),
    (6, "header", "Copies", "heads beside a and b: two headers and, by the same places, their kinds"),
    (6, "directory", "Slot Old named is_in", "the length of a name whose bytes stand in the volume"),
    (6, "store", "list", "counts and rows, lent side by side"),
]
NUMBER = r"(?:u8|u16|u32|u64|usize)"
FLAT = re.compile(rf"(?:&mut )?(?:{NUMBER}|\[{NUMBER}; \w+\])")


def passes_on(f):
    """How often a function hands a refusal on by hand, where `?` could stand."""
    many = len(re.findall(r"if let (?:Outcome::No|Err)\(", f.body))
    for m in re.finditer(r"\w+::Refused\((\w+)\) =>|(?:\w+::No|\bErr)\((\w+)\) =>", f.body):
        name, rest = m[1] or m[2], f.body[m.end() :].split("=>")[0]
        many += bool(name != "_" and re.search(rf"\b{name}\b", rest) and "number(" not in rest)
    return many


def shape(e):
    """Whether an enum has the shape of Option or Result."""
    payloads = [p for _, p in e.members()]
    if len(payloads) > 1 and "(Error)" in payloads:
        return "Result's shape"
    return "Option's shape" if len(payloads) == 2 and sum(map(bool, payloads)) == 1 else None


def point_1(fns, types):
    bare = {t.name for t in types if t.kind == "enum" and t.name != "Error" and not any(p for _, p in t.members())}
    for t in types:
        if t.kind == "enum" and shape(t):
            yield t, f"an enum of {shape(t)}: {', '.join(n for n, _ in t.members())}"
        groups = [t.members()] if t.kind == "struct" else [[r.strip().partition(": ")[::2] for r in parts(p[1:-1])] for _, p in t.members() if ":" in p]
        for n, kind in (m for g in groups if len(g) > 1 for m in g):
            if kind == "bool" or kind in bare:
                yield t, f"a flag or kind beside values: {n}"
            elif kind == "Outcome" or kind.startswith("Result<()"):
                yield t, f"an outcome beside values: {n}"
            elif re.fullmatch(r"copy|kind", n) and re.fullmatch(NUMBER, kind):
                yield t, f"a number for a kind: {n}"
    for f in fns:
        names = [n for n, _ in f.params]
        for n in (n for n, t in f.params if t == "bool" and GUARDED.get(n, set()) & set(names)):
            yield f, f"parameters: {n} beside {', '.join(sorted(GUARDED[n] & set(names)))}"
        for n in (n for n, t in f.params if n in ("copy", "kind") and re.fullmatch(NUMBER, t)):
            yield f, f"a number for a kind: the parameter {n}"
        if "2,048 where there is none" in f.above or re.search(r"\bc < 2048\b", f.body):
            yield f, "2,048 for none"
        if re.search(r"number\(\w+\) == \d", f.body):
            yield f, "a refusal known by its number"
        if passes_on(f):
            yield f, f"hands a refusal on by hand, {passes_on(f)} times"
    yield from ((found[0], what) for found, what in standing(fns + types, 1))


def standing(items, point):
    """The rows of READ that still stand, each as its items and what it is; a function that only calls another does not stand."""
    for _, crates, names, why in (row for row in READ if row[0] == point):
        found = [i for n in names.split() for i in items if i.name == n and i.crate in crates.split() and not thin(i)]
        if len(found) > 1 or (found and " " not in names + crates):
            yield found, f"by reading, {', '.join(f'{i.crate} {i.title}' for i in found)}: {why}"


def point_2(fns, types):
    read, same = list(standing(fns + types, 2)), defaultdict(list)
    for f in fns:
        if len(normal(f.body)) >= 12 and not thin(f):
            same["the same body but for names and constants", normal(f.body)].append(f)
        if "≡" in f.contract:
            same["the same promise", re.sub(r"\s+", " ", f.contract[f.contract.index("ensures") :])].append(f)
    for t in types:
        told = sorted(kind for _, kind in t.members())
        if t.kind == "enum" or len(told) > 2:
            same["the same parts by other names", t.kind, str(told)].append(t)
    for (alike, *_), group in same.items():
        if len(group) > 1 and not any(set(group) <= set(found) for found, _ in read):
            yield group[0], f"{alike}: {', '.join(f'{i.crate} {i.title}' for i in group)}"
    yield from ((found[0], what) for found, what in read)


def point_3(fns, _):
    for f in fns:
        for line, free, counter, body in loops(f):
            by_hand = re.search(r"\b(\w+) (?:[+-]=|= \1 [+-]) \d+;", body)
            if free:
                yield f, f"line {line}: while" + (f", {by_hand[1]} counted by hand" if by_hand else "")
            elif counter and (indexed(counter, body) or by_hand):
                yield f, f"line {line}: for over a range, " + (f"elements by {counter}" if indexed(counter, body) else f"{by_hand[1]} counted by hand")


def converts(f, own):
    """A function between values of our own types and numbers, or between two enums by one match. One that asks another function, or has a loop, is none."""
    given, first = [t for n, t in f.params if n != "self"], f.body.split()[:1]
    mine, flat = [t for t in given if t in own], [t for t in given if FLAT.fullmatch(t)]
    if not given or len(given) < len(f.params) or len(mine + flat) < len(given) or re.search(r"\bif !?[\w:]+\(|\b(for|while)\b", f.body):
        return None
    if len(mine) == 1 and FLAT.fullmatch(f.answer) and (not flat or first == ["match"]):
        return f"{mine[0]} to numbers"
    if len(mine) == 1 and not f.answer and "&mut [" in str(flat):
        return f"{mine[0]} to numbers"
    if not mine and f.answer in own and ("[" in str(flat[0]) or first == ["if"]):
        return f"numbers to {f.answer}"
    if len(mine) == 1 and f.answer in own and f.answer != mine[0] and first == ["match"]:
        return f"{mine[0]} to {f.answer}"
    return None


def point_4(fns, types):
    own = {t.name for t in types}
    for f in fns:
        on, cases = arms(f.body)
        if re.search(r"\b(\w+)\.(\w+) == (?!\1)\w+\.\2\b|\w+\[[^\]]*\] [!=]= \w+\[", f.body):
            yield f, "compares by hand, field by field or element by element"
        elif f.answer == "bool" and cases and all(v in ("true", "false") for _, v in cases):
            yield f, f"asks which variant {on} is, by a match"
        for name, value, many in copied(f.body):
            yield f, f"a {name} made with {many} fields of {value}"
        for name in re.findall(r"let mut (\w+) = \w+;", f.body) + ["self"] * any(n == "self" for n, _ in f.params):
            if re.search(rf"^\s*{name}\.\w+(\[\w+\])? = ", f.body, re.M):
                yield f, f"a copy changed field by field: {name}"
        if any(re.fullmatch(r"\s*\w+\[[^\]]*\] = (\w+(\[\w+\])?);\s*", body) for _, _, _, body in loops(f)):
            yield f, "copies or fills an array by a loop"
        if what := converts(f, own):
            yield f, f"converts: {what}"
        if re.search(r"\bPut \w|decimal_text", f.contract):
            yield f, "prints by hand"
    yield from ((found[0], what) for found, what in standing(fns + types, 4))


def point_5(fns, types):
    for kind in ("requires", "ensures"):
        at = defaultdict(dict)
        for f in fns:
            at_once = {fact: f for fact in facts(f, kind)}
            for fact, f in at_once.items():
                at[fact][id(f)] = f
        for fact, found in at.items():
            if len(found) > 2:
                yield next(iter(found.values())), f"{kind} {fact}: in {len(found)} functions"
    sets = [{f"{n}: {re.sub(r'&|mut ', '', t)}" for n, t in f.params} for f in fns]
    alone = Counter(n for s in sets for n in s)
    pairs = Counter(p for s in sets for p in combinations(sorted(s), 2))
    groups = []
    for a, b in (p for p, many in pairs.items() if many > 2 and 2 * many >= max(alone[p[0]], alone[p[1]])):
        met = [g for g in groups if a in g or b in g]
        groups = [g for g in groups if g not in met] + [set().union({a, b}, *met)]
    for g in groups:
        many = [f for f, s in zip(fns, sets) if len(g & s) > 1]
        yield many[0], f"parameters {', '.join(sorted(g))}: two of them or more in {len(many)} functions"
    yield from ((found[0], what) for found, what in standing(fns + types, 5))


LENGTH = re.compile(r"(?:len|length|fill|count)(?:: usize)?")


def point_6(fns, types):
    for t in types:
        fields = t.members() if t.kind == "struct" else []
        beside = [n for n, kind in fields if LENGTH.fullmatch(n) and kind == "usize"]
        rows = [n for n, kind in fields if kind.startswith("[u8;")]
        if beside and rows:
            yield t, f"an array with its length beside: {', '.join(rows)}; {', '.join(beside)}"
    for f in fns:
        beside = [n for n, t in f.params if LENGTH.fullmatch(n) and t == "usize"]
        rows = [n for n, t in f.params if "[u8" in t]
        if beside and rows:
            yield f, f"a length beside a buffer: {', '.join(rows)}; {', '.join(beside)}"
        for row, n in re.findall(r"&(?:mut )?(\w+)\[0\.\.(n|k|len|length|fill|count)\]", f.body):
            if n not in [counter for _, _, counter, _ in loops(f)]:
                yield f, f"the first bytes of a buffer by a length kept beside: {row}, {n}"
        for line, free, counter, body in loops(f):
            if counter and "return" in body and indexed(counter, body):
                yield f, f"line {line}: a search by hand"
    yield from ((found[0], what) for found, what in standing(fns + types, 6))


def point_7(fns, types):
    kinds = {t.name for t in types if t.kind == "enum" and not shape(t)}
    for f in fns:
        on, cases = arms(f.body)
        over = {m[1] for p, _ in cases for m in [re.match(r"(\w+)::", p)] if m} & kinds
        plain = r"true|false|\d+|[\w.]+( as \w+)?|\w+::[A-Z]\w*(\(.*\))?|\{\s*\}"
        if over and not all(re.fullmatch(plain, v) for _, v in cases):
            yield f, f"a match on {on} by the variants of {over.pop()}"
        for n in (n for n, t in f.params if t == "bool" and not GUARDED.get(n, set()) & {n for n, _ in f.params}):
            if re.search(rf"\bif !?{n}\b|[(,] ?{n}[,)]", f.body):
                yield f, f"a bool chooses the step: {n}"
        if re.search(r"\[(?:impl )?fn\b|: &?\[?fn\(", f.body):
            yield f, "a table of functions"


def proofs(texts):
    """Point 8: the proofs of crates/, counted."""
    answers = [t for p, t in texts.items() if re.search(r"/proofs/.+/Answers\.antt", p)]
    loops_of = [p for p in texts if p.endswith("/Invariants.antt")]
    lemmas = [t for p, t in texts.items() if re.match(r"crates/\w+/proofs/\w+\.antt", p)]
    yield "Answers.antt", len(answers)
    yield "answers in them (lines `pub NAME : goal.`)", sum(len(re.findall(r"^ *pub \S+ : goal\.", t, re.M)) for t in answers)
    yield "lines of Answers.antt", sum(t.count("\n") for t in answers)
    yield "Invariants.antt", len(loops_of)
    yield "files of lemmas", len(lemmas)
    yield "lines of lemmas", sum(t.count("\n") for t in lemmas)
    yield "lemmas (`pub NAME : ..`)", sum(len(re.findall(r"^ *(?:abbrev |unfoldable )*pub \S+ :(?: |$)", t, re.M)) for t in lemmas)


def main(args):
    brief = "--counts" in args
    commits = [a for a in args if a != "--counts"]
    if len(commits) > 1 or any(a.startswith("-") for a in commits):
        usage("docs/design_places.py [COMMIT] [--counts]")
    texts = tree(commits[0] if commits else None)
    found = [i for path in sorted(texts) if re.match(r"crates/\w+/src/.*\.rt$", path) for i in items(path, texts[path])]
    fns, types = [i for i in found if i.kind == "fn"], [i for i in found if i.kind != "fn"]
    print(f"src/: {len(fns)} functions, {len(types)} structs and enums")
    for k, point in enumerate((point_1, point_2, point_3, point_4, point_5, point_6, point_7), 1):
        rows = list(point(fns, types))
        for i, what in [] if brief else rows:
            print(f"{k}  {i.path}:{i.line}  {i.title}  {what}")
        print(f"point {k}: {len(rows)} places")
    for what, many in proofs(texts):
        print(f"point 8: {many} {what}")


if __name__ == "__main__":
    main(sys.argv[1:])

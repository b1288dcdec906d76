#!/usr/bin/env python3
"""Holds docs/FORMAT.md to what it speaks of: check_format.py ORACLE, where ORACLE is the program
of tests/oracle. Taken out of the page, in its order, and run as one session on the Rust, with
the port's own numbers (`rule3 on`):

    ```calls        calls of `oracle`; a line "= TEXT" is the answer to the line before it
    ```bytes        sector=N [rest=0]: lines OFFSET HEX [note]; with rest=0 all else in it is 0
    ```stops CALL   the call with 0, 1, .. writes left, each from where the session stands
    <!-- table T sector=N [at=O] -->   T of draw.py; the example column must be the bytes there

The Rust does not tell blank sectors: the answer to `blank` is the driver's count. It has no points, so these are made anew here:

    ```line POINT ID NUMBER   the line of a point, lines OFFSET HEX [note]
    ```says POINT             lines PAYLOAD and what it says of the point, with \\t, \\n, \\r

Blanks in calls and answers are not compared. Besides: draw.py's numbers, and the line of a point
made here, must be those of the definitions, and every definition that the page cites must be
declared where it says."""
import os
import re
import subprocess
import sys

sys.dont_write_bytecode = True
import draw
from sources import usage

ROOT = os.path.dirname(os.path.dirname(os.path.abspath(__file__)))
D = draw
LARGEST = 2**32 - 1  # of an id or a record number in a line of MARKS


def line_of(point, file, number):
    return b"%s\t%d\t%d\n" % (point.encode(), file, number)


def said(point, payload):
    """What a record of MARKS says of a point."""
    m = re.fullmatch(rb"%s\t(0|[1-9][0-9]*)\t(0|[1-9][0-9]*)\n" % re.escape(point.encode()), payload)
    numbers = [int(g) for g in m.groups()] if m else [LARGEST + 1]
    return "nothing" if max(numbers) > LARGEST else "file id %d, number %d" % tuple(numbers)


def listed(data):
    """Bytes as a definition writes a list."""
    return " ∷ ".join([str(b) for b in data] + ["[]"])


TAB, FEED = b"\t\n"
# What the definitions must say, with draw.py's numbers in it, and with the line of a point as it is made here.
DEFINED = [
    ("medium/Sector", f"sectors_of vol = length vol / {D.SECTOR}"),
    ("handles/Handles", f"base_of copy = pick (eqb copy 0) 0 {D.COPY_B}"),
    ("handles/Handles", f"table_of chunks = (chunks + {D.LINKS - 1}) / {D.LINKS}"),
    ("handles/Handles", f"body_of chunks = {D.DIRECTORY} + table_of chunks"),
    ("handles/Handles", f"leb h.chunks {D.CHUNKS}"),
    ("handles/Handles", f"leb h.chunk {D.SIZE}"),
    ("format/Format", f"chunks_of sectors size = min ((sectors - {D.DATA}) / size) {D.CHUNKS}"),
    ("directory/Scan", f"v.done {D.SLOTS} 0 s"),
    ("directory/Entry", f"entry_bytes name id = put_le 4 40 id (over 0 name (zeros {D.ENTRY}))"),
    ("table/Link", f"link_part vol st c = part ({D.LINK} * (c % {D.LINKS})) {D.LINK}"),
    ("table/Link", "owner_of l = l.slot + 1 + 128 * l.records"),
    ("table/Link", "place_of l = l.position + pick l.partial 32768 0"),
    ("record/Record", f"data_at st chunk index = {D.DATA} + chunk * st.head.chunk + index"),
    ("record/Record", f"leb (get_le 2 20 sector) {D.PAYLOAD}"),
    ("record/Record", "put 8 4 id ∷ put 4 12 file ∷ put 4 16 number ∷ put 2 20 n"),
    ("record/Record", "is_blank sector = all_same 0 sector || all_same 255 sector"),
    ("seal/Seal", f"sealed l = put_le 4 {D.SECTOR - 4}"),
    ("header/Header", "put 2 16 1 ∷ put 2 18 8 ∷ put 2 20 (table_of h.chunks)"),
    ("header/Header", "put 8 24 h.id ∷ put 8 32 h.generation"),
    ("header/Header", "put 4 40 h.next_id ∷ put 4 44 h.cursor ∷ put 4 48 h.chunks ∷ put 4 52 h.chunk"),
    ("header/Header", "content_of h = over 64 (words (take (body_of h.chunks) h.crcs))"),
    ("marks/Line", f"marks_name = {listed(b'MARKS')}"),
    ("marks/Line", f"line_of p id n = p ++ ({TAB} ∷ decimal_text id) ++ ({TAB} ∷ decimal_text n) ++ ({FEED} ∷ [])"),
    ("marks/Line", f"says_of p x = pick (eqb (last_byte x) {FEED}) (three_of p (fields (all_but_last x))) None"),
    ("marks/Line", f"numbers_of id n = mark_of (plain_of {LARGEST} id) (plain_of {LARGEST} n)"),
    ("marks/Edges", f"line_of p 1 3 ≡ {listed(line_of('p', 1, 3))}"),
    ("decimal/Decimal", "pick (ltb n 10) ((48 + n) ∷ []) (digits_of k (n / 10) ++ ((48 + n % 10) ∷ []))"),
    ("decimal/Fields", f"fields l = split_at {TAB} l"),
    ("names/Names", "point_ok l = between 1 16 (length l) && every_plain l"),
]


def bad(where, why):
    sys.exit("docs/FORMAT.md: %s: %s" % (where, why))


def spec(name):
    crate, file = name.split("/")
    path = os.path.join(ROOT, "crates", crate, "specs", file + ".antt")
    return open(path, encoding="utf-8").read() if os.path.exists(path) else bad(name, "no such definitions")


def definitions(text):
    for name, says in DEFINED:
        if says not in spec(name):
            bad(name, "does not say: " + says)
    cited = 0
    for name, names in re.findall(r"\b([a-z]+/[A-Z]\w+)\s+((?:`[\w-]+`(?:,\s+)?)+)", text):
        for n in re.findall(r"`([\w-]+)`", names):
            cited += 1
            if not re.search(r"^[a-z ]*\bpub (?:record |data )?%s\b" % re.escape(n), spec(name), re.M):
                bad(name, "does not declare " + n)
    return cited


class Session:
    """Lines for one run of the Rust, and what each must print."""

    def __init__(self, oracle):
        self.oracle, self.lines, self.tests, self.names = oracle, ["rule3 on"], [], []

    def run(self, line, test=None):
        self.lines += [line, "say =="]
        self.tests.append(test)

    def check(self):
        got = subprocess.run([self.oracle], input="\n".join(self.lines), capture_output=True, text=True, check=True).stdout
        answers = ("\n" + got).split("\nsay ==")
        assert len(answers) == len(self.tests) + 1
        for test, answer in zip(self.tests, answers):
            if test:
                test(answer.strip("\n"))


def squeezed(text):
    return "".join(text.split())


def calls(s, lines):
    """HEX of append may be parted by blanks."""
    k = 0
    while k < len(lines):
        line, want, k = lines[k], [], k + 1
        while k < len(lines) and lines[k].startswith("= "):
            want.append(lines[k][2:])
            k += 1
        words = line.split()
        if words[0] == "append":
            line = "append " + "".join(words[1:])
        if words[0] == "create" and want[0].startswith("ok"):
            s.names.append(words[1])

        def test(answer, line=line, want="\n".join(want)):
            if squeezed(answer) != squeezed(want):
                bad(line, "the Rust answers %r, the page has %r" % (answer, want))

        s.run(line, test)


def sector_bytes(s, sector, what, rows, rest):
    """Rows are (offset, bytes)."""

    def test(answer):
        got = bytes.fromhex(answer)
        told = bytearray(512)
        for offset, data in rows:
            told[offset : offset + len(data)] = data
            if got[offset : offset + len(data)] != data:
                bad("%s, sector %d, offset %d" % (what, sector, offset), "the Rust has " + got[offset : offset + len(data)].hex(" "))
        if rest and got != bytes(told):
            bad("%s, sector %d" % (what, sector), "bytes that are not shown are not 0")

    s.run("dump %d 0 512" % sector, test)


def rows_of(lines):
    rows = []
    for line in lines:
        offset, data = re.match(r"\s*(\d+)  ((?:[0-9a-f]{2} )*[0-9a-f]{2})(?:\s{2,}.*)?$", line).groups()
        rows.append((int(offset), bytes.fromhex(data)))
    return rows


def bytes_block(s, info, lines):
    sector_bytes(s, int(info["sector"]), "bytes", rows_of(lines), info.get("rest") == "0")


def point_line(info, lines):
    point, file, number = info.split()
    told = b""
    for offset, data in rows_of(lines):
        if offset != len(told):
            bad("line " + info, "a gap before offset %d" % offset)
        told += data
    want = line_of(point, int(file), int(number))
    if told != want:
        bad("line " + info, "it is " + want.hex(" "))


def says(point, lines):
    for line in lines:
        payload, what = re.split(r"\s{2,}", line.strip())
        want = said(point, payload.encode().decode("unicode_escape").encode())
        if what != want:
            bad("says %s, %s" % (point, payload), want)


def value(cell):
    """`body` is that of the session: 1 table sector."""
    cell = cell.replace(",", "").replace("×", "*").replace("−", "-").replace("body", str(D.BODY))
    assert re.fullmatch(r"[0-9a-fx+* -]+", cell), cell
    return eval(cell)


def example(cell, width):
    if cell.startswith("`"):
        return cell.strip("`").encode().ljust(width, b"\0")
    times, _, number = cell.rpartition("× ")
    times = int(times or 1)
    return int(number, 0).to_bytes(width // times, "little") * times


def table(s, info, name, lines):
    want = getattr(D, name)
    rows = [[c.strip() for c in line.strip("|").split("|")] for line in lines[2:]]
    got = [(value(r[0]), value(r[1])) for r in rows]
    if got != [(offset, width) for offset, width, _ in want]:
        bad("table " + name, "offsets and widths are not draw.py's")
    end = 0
    for offset, width in got:
        if offset != end:
            bad("table " + name, "a gap before offset %d" % offset)
        end = offset + width
    at = int(info.get("at", 0))
    shown = [(at + o, example(r[-1], w)) for (o, w), r in zip(got, rows)]
    sector_bytes(s, int(info["sector"]), "table " + name, shown, False)
    return len(rows)


def files_of(answers):
    """From list, and reader and next of each name: name, chunks, payloads."""
    rows = [line.split() for line in answers["list"].split("\n")[1:]]
    told = []
    for name, _, chunks in rows:
        payloads = [bytes.fromhex(a.split()[3]).decode().encode("unicode_escape").decode() for a in answers[name] if a.startswith("ok payload")]
        what = ": " + ", ".join(payloads) if payloads else ", no record"
        told.append("%s, %s chunk%s%s" % (name, chunks, "" if chunks == "1" else "s", what))
    return "; ".join(told) or "none"


def stops(s, call, lines):
    next_left = 0
    s.run("save here")
    for line in lines[1:]:
        lefts, answer, mounted, files = re.split(r"\s{2,}", line.strip())
        first, _, last = lefts.partition(" to ")
        if int(first) != next_left:
            bad("stops " + call, "no row for %d writes left" % next_left)
        next_left = int(last or first) + 1
        for left in range(int(first), next_left):
            stop(s, call, left, answer, mounted, files)
    s.run("load here")
    # the last row is the call that nothing stops: with a write to spare it makes no more writes
    s.run("setleft %d" % next_left)
    s.run(call)
    s.run("left", lambda a: a == "left 1" or bad("stops " + call, "a row is missing: %s after %d writes" % (a, next_left - 1)))
    s.run("load here")


def stop(s, call, left, answer, mounted, files):
    where = "stops %s, %d writes left" % (call, left)
    seen = {}
    names = s.names + ([call.split()[1]] if call.startswith("create") else [])
    s.run("load here")
    s.run("setleft %d" % left)
    s.run(call, lambda a: a == answer or bad(where, "the Rust answers " + a))
    s.run("setleft max")
    s.run("mount", lambda a: seen.update(mount=a))
    s.run("show store", lambda a: seen.update(store=a))
    s.run('list ""', lambda a: seen.update(list=a))
    for name in dict.fromkeys(names):
        s.run("reader " + name, lambda a, name=name: seen.update({name: [a]}))
        for _ in range(8):
            s.run("next", lambda a, name=name: seen[name].append(a))

    def test(_):
        if seen["mount"].startswith("no "):
            got = ("nothing: it gives " + seen["mount"][3:], "none")
        else:
            copy, generation = re.search(r"copy=(\d) .* gen=(\d+)", seen["store"]).groups()
            got = ("%s, generation %s" % ("AB"[int(copy)], generation), files_of(seen))
        if got != (mounted, files):
            bad(where, "the Rust leaves %s; %s" % got)

    s.run("left", test)


def info_of(text):
    return dict(re.findall(r"(\w+)=(\w+)", text))


def main():
    if len(sys.argv) != 2 or not os.access(sys.argv[1], os.X_OK):
        usage("docs/check_format.py ORACLE, the program of tests/oracle (tests/format/run makes it)")
    text = open(os.path.join(ROOT, "docs", "FORMAT.md"), encoding="utf-8").read()
    cited = definitions(text)
    s, counts = Session(sys.argv[1]), dict.fromkeys(("calls", "bytes", "stops", "table", "line", "says"), 0)
    for m in re.finditer(r"^```(calls|bytes|stops|line|says)\b(.*)\n((?:.*\n)*?)```$|^<!-- table (\w+)(.*) -->\n\n((?:\|.*\n)+)", text, re.M):
        kind, info, body, name, of, rows = m.groups()
        lines = [line for line in (body or rows).split("\n") if line.strip()]
        counts[kind or "table"] += len(lines)
        if kind == "calls":
            calls(s, lines)
        elif kind == "bytes":
            bytes_block(s, info_of(info), lines)
        elif kind == "stops":
            stops(s, info.strip(), lines)
        elif kind == "line":
            point_line(info.strip(), lines)
        elif kind == "says":
            says(info.strip(), lines)
        else:
            table(s, info_of(of), name, lines)
    if not all(counts.values()) or text.count("```") % 2 or len(re.findall(r"^```\w+", text, re.M)) * 2 != text.count("```"):
        bad("blocks", "not as expected: %s" % counts)
    s.check()
    print("format: %(calls)d lines of calls, %(bytes)d of bytes, %(stops)d of stops, %(table)d of tables agree with the Rust" % counts
          + "; %(line)d of lines of MARKS and %(says)d of what records say are as made anew" % counts
          + "; %d definitions cited, %d held to the numbers" % (cited, len(DEFINED)))


main()

#!/usr/bin/env python3
"""Draws docs/volume.svg, docs/commit.svg and docs/crates.svg. `draw.py --check` draws them anew and compares.

The numbers of the layout stand here once, below; docs/check_format.py holds FORMAT.md's
tables, the definitions in crates/*/specs and bytes made by the Rust to them."""
import os
import sys

sys.dont_write_bytecode = True
from sources import crates as listed
from sources import usage

SECTOR = 512  # bytes of a sector
COPY_B = 32  # the sector of copy B's header; copy A's is 0
DATA = 64  # the first data sector
DIRECTORY = 8  # directory sectors of a body
ENTRY = 64  # bytes of a directory entry
LINK = 4  # bytes of a link
CHUNKS = 2048  # most chunks
SIZE = 512  # most sectors of a chunk
PAYLOAD = 486  # most bytes of a record
LINKS = SECTOR // LINK  # links of a table sector
SLOTS = DIRECTORY * SECTOR // ENTRY
TABLE = CHUNKS // LINKS  # most table sectors

# Fields: offset, width, label. `BODY` body sectors are those of 1 to 128 chunks.
BODY = DIRECTORY + 1
HEADER = [
    (0, 16, "magic|CYCLING-STORE"), (16, 2, "version|1"), (18, 2, "8"), (20, 2, "table|sectors"), (22, 2, "0"),
    (24, 8, "store|id"), (32, 8, "gener-|ation"), (40, 4, "next|file id"), (44, 4, "cursor"), (48, 4, "chunks"),
    (52, 4, "sectors|per chunk"), (56, 8, "0"), (64, 4 * BODY, "a CRC for each|body sector"),
    (64 + 4 * BODY, SECTOR - 4 - 64 - 4 * BODY, "0"), (SECTOR - 4, 4, "CRC"),
]
ENTRY_FIELDS = [(0, 40, "name, then zeros to 40"), (40, 4, "file id, not 0"), (44, ENTRY - 44, "0")]
RECORD = [
    (0, 4, "mark|CSRD"), (4, 8, "store id"), (12, 4, "file id"), (16, 4, "number"), (20, 2, "length|1 to %d" % PAYLOAD),
    (22, PAYLOAD, "payload, then zeros"), (SECTOR - 4, 4, "CRC"),
]
# A link's two numbers, high bit first: bits, label, value in the example of 01's Edges.
FIRST = [(9, "records of a partial chunk", 5), (7, "slot + 1", 2 + 1)]
SECOND = [(1, "partial", 1), (15, "position of the chunk in its file", 3)]

WIDE, LEFT, RIGHT = 1120, 84, 1100
INK, SOFT, RULE = "#1f2933", "#52606d", "#9aa5b1"
BLUE, GREEN, AMBER, GREY, WHITE, ROSE = "#dbeafe", "#d8f3dc", "#fff1c9", "#eef1f4", "#ffffff", "#fde2e2"


def width_of(text, size):
    """At least what the text takes: short labels have wide letters, long lines have not."""
    return (0.61 if len(text) < 40 else 0.54) * size * len(text)


class Picture:
    """Elements of one SVG. A text that does not fit where it stands is an error."""

    def __init__(self, title, high):
        self.parts = [
            '<svg xmlns="http://www.w3.org/2000/svg" viewBox="0 0 %d %d" width="%d" height="%d" role="img" '
            'font-family="DejaVu Sans, Verdana, Arial, sans-serif">' % (WIDE, high, WIDE, high),
            "<title>%s</title>" % title,
            '<rect width="%d" height="%d" fill="%s"/>' % (WIDE, high, WHITE),
        ]
        self.high = high

    def text(self, x, y, text, size=13, ink=INK, anchor="start", bold=False, room=None):
        wide = width_of(text, size) * (1.08 if bold else 1)
        start = x - {"start": 0, "middle": wide / 2, "end": wide}[anchor]
        assert start >= 0 and start + wide <= WIDE and y <= self.high, "outside: " + text
        assert room is None or wide <= room, "no room: " + text
        text = text.replace("&", "&amp;").replace("<", "&lt;")
        self.parts.append(
            '<text x="%g" y="%g" font-size="%g" fill="%s" text-anchor="%s"%s>%s</text>'
            % (x, y, size, ink, anchor, ' font-weight="bold"' if bold else "", text)
        )

    def box(self, x, y, w, h, label="", fill=WHITE, size=13, dashed=False, bold=False):
        self.parts.append(
            '<rect x="%g" y="%g" width="%g" height="%g" fill="%s" stroke="%s"%s/>'
            % (x, y, w, h, fill, INK, ' stroke-dasharray="4 3"' if dashed else "")
        )
        lines = label.split("|") if label else []
        for i, line in enumerate(lines):
            at = y + h / 2 + size * 0.36 + (i - (len(lines) - 1) / 2) * (size + 4)
            self.text(x + w / 2, at, line, size, anchor="middle", bold=bold, room=w - 4)

    def line(self, x1, y1, x2, y2, ink=RULE, dashed=False):
        dash = ' stroke-dasharray="4 3"' if dashed else ""
        self.parts.append('<line x1="%g" y1="%g" x2="%g" y2="%g" stroke="%s"%s/>' % (x1, y1, x2, y2, ink, dash))

    def arrow(self, *points):
        """A line through the points, with a head at the last, along x or y."""
        (x1, y1), (x2, y2) = points[-2:]
        dx, dy = (x2 > x1) - (x2 < x1), (y2 > y1) - (y2 < y1)
        tip = [(x2, y2), (x2 - 8 * dx - 4 * dy, y2 - 8 * dy - 4 * dx), (x2 - 8 * dx + 4 * dy, y2 - 8 * dy + 4 * dx)]
        path = " ".join("%g,%g" % p for p in points)
        self.parts.append('<polyline points="%s" fill="none" stroke="%s" stroke-width="1.4"/>' % (path, INK))
        self.parts.append('<polygon points="%s" fill="%s"/>' % (" ".join("%g,%g" % p for p in tip), INK))

    def done(self):
        return "\n".join(self.parts + ["</svg>"]) + "\n"


def fields(p, y, title, rows, fills):
    """A row of fields, each with its offset above and its width below; not to scale."""
    p.text(20, y, title, 15, bold=True)
    need = [max([width_of(part, 13) for part in label.split("|")] + [width_of("000", 12)]) + 8 for _, _, label in rows]
    spare = (RIGHT - LEFT - sum(need)) / len(rows)
    assert spare >= 0, title
    for at, caption in ((30, "offset"), (62, "field"), (94, "bytes")):
        p.text(20, y + at, caption, 12, SOFT)
    x = LEFT
    for (offset, wide, label), w in zip(rows, need):
        w += spare
        p.text(x + 1, y + 30, str(offset), 12, SOFT)
        p.box(x, y + 36, w, 42, label, fills.get(label, GREY if label == "0" else WHITE))
        p.text(x + w / 2, y + 94, str(wide), 12, SOFT, "middle")
        x += w


def bits(p, x, y, title, parts):
    """One number of 16 bits, high bit first, with the example's bits."""
    cell, number = 31, 0
    p.text(x, y, title, 13)
    for wide, label, value in parts:
        for i in range(wide):
            p.box(x + cell * i, y + 10, cell, 26, str(value >> (wide - 1 - i) & 1), BLUE if value >> (wide - 1 - i) & 1 else WHITE)
        p.line(x + 2, y + 44, x + cell * wide - 2, y + 44, INK)
        if wide > 1:
            p.text(x + cell * wide / 2, y + 60, "%s: %d" % (label, value), 13, anchor="middle", room=cell * wide + 10)
        else:
            p.text(x, y + 60, label, 13)
        x, number = x + cell * wide, number << wide | value
    return number.to_bytes(2, "little").hex(" ")


def volume():
    p = Picture("The volume", 1000)
    p.text(20, 30, "The volume: S sectors of %d bytes" % SECTOR, 15, bold=True)
    a, b, d, end = 20, 250, 480, RIGHT
    for x, n in ((a, "sector 0"), (b, COPY_B), (d, DATA)):
        p.text(x, 54, str(n), 12, SOFT)
    p.text(end, 54, "S", 12, SOFT, "end")
    p.box(a, 60, b - a, 44, "copy A of the metadata", BLUE)
    p.box(b, 60, d - b, 44, "copy B of the metadata", BLUE)
    p.box(d, 60, end - d, 44, "data: chunks 0, 1, 2, ..; at most %s" % format(CHUNKS, ","), GREEN)
    for x, to in ((a, 20), (b, 650)):
        p.line(x, 104, to, 148, RULE, True)
    for x, to in ((d, 690), (end, RIGHT)):
        p.line(x, 104, to, 148, RULE, True)
    x = 20
    p.box(x, 148, 90, 52, "header", AMBER)
    p.box(x + 90, 148, 200, 52, "directory|%d entries, %d a sector" % (SLOTS, SECTOR // ENTRY), BLUE)
    p.box(x + 290, 148, 220, 52, "table: 1 to %d sectors|%d links a sector" % (TABLE, LINKS), BLUE)
    p.box(x + 510, 148, 120, 52, "not used", GREY, dashed=True)
    for at, n in ((0, "0"), (90, "1 to %d" % DIRECTORY), (290, "%d to at most %d" % (BODY, DIRECTORY + TABLE)), (510, "to %d" % (COPY_B - 1))):
        p.text(x + at + 2, 218, n, 12, SOFT)
    p.text(20, 238, "a copy; B is the same from sector %d on" % COPY_B, 12, SOFT)
    for i, label in enumerate(("chunk 0", "chunk 1", "chunk 2", "..")):
        p.box(690 + 102.5 * i, 148, 102.5, 52, label, GREEN)
    p.text(690, 218, "a chunk is 1 to %d sectors, a record each:" % SIZE, 12, SOFT)
    p.text(690, 238, "sector %d + chunk × size + index" % DATA, 12, SOFT)

    fields(p, 290, "A header sector (here with 1 table sector)", HEADER, {})
    fields(p, 420, "A directory entry", ENTRY_FIELDS, {})
    fields(p, 550, "A record sector", RECORD, {"payload, then zeros": GREEN})
    p.text(20, 684, "A link: %d bytes, two numbers of 16 bits" % LINK, 15, bold=True)
    first = bits(p, LEFT, 714, "the first number, bit 15 down to bit 0", FIRST)
    second = bits(p, LEFT, 810, "the second number, bit 15 down to bit 0", SECOND)
    p.box(660, 722, 420, 146, "", GREY)
    p.text(676, 748, "Here: slot 2, position 3, partial with 5 records.", 13)
    p.text(676, 772, "In the volume, low byte first:  %s %s" % (first, second), 13, bold=True)
    p.text(676, 804, "Link c says which file chunk c belongs to: the slot", 13)
    p.text(676, 824, "of its directory entry, and the chunk's place in it.", 13)
    p.text(676, 852, "Four zero bytes: the chunk is free.", 13)
    p.text(20, 916, "Numbers are little-endian. A CRC is CRC-32 (IEEE 802.3): in a header and a record of its bytes 0 to %d, in the list of a header" % (SECTOR - 5), 13, SOFT)
    p.text(20, 936, "of a whole body sector. Offsets and widths are in bytes, in decimal. A field that is shown as 0 must be 0 in a header and in an entry;", 13, SOFT)
    p.text(20, 956, "in a record the bytes past the payload are written 0 and not tested.", 13, SOFT)
    return p.done()


def commit():
    p = Picture("A commit and an append", 900)
    p.text(20, 30, "A commit: the other copy is written, the current one is left alone (here A is current)", 15, bold=True)
    left, col = 150, 235
    heads = [("before", ""), ("write 1", "zero the other header"), ("writes 2, 3, ..", "body sectors whose new|checksum was not listed"), ("the last write", "the new header")]
    for i, (head, what) in enumerate(heads):
        x = left + col * i
        p.text(x + col / 2, 62, head, 13, anchor="middle", bold=True)
        for k, line in enumerate(what.split("|")):
            p.text(x + col / 2, 82 + 17 * k, line, 12, SOFT, "middle", room=col)
        if i:
            p.arrow((x - 26, 58), (x + 26, 58))
    rows = [
        ("A: header", [("generation g", GREEN)] * 4),
        ("A: body", [("the files, before", GREEN)] * 4),
        ("B: header", [("older, or none", GREY), ("zeros", WHITE), ("zeros", WHITE), ("generation g + 1", GREEN)]),
        ("B: body", [("older", GREY), ("older", GREY), ("older and new, mixed", ROSE), ("the files, after", GREEN)]),
    ]
    for r, (name, cells) in enumerate(rows):
        y = 112 + 40 * r
        p.text(20, y + 21, name, 13)
        for i, (label, fill) in enumerate(cells):
            p.box(left + col * i + 8, y, col - 16, 32, label, fill, dashed=label == "zeros")
    y = 282
    p.text(20, y + 16, "a stop here:", 13, bold=True)
    p.text(20, y + 34, "mount takes", 13, bold=True)
    for i, label in enumerate(["A: the old files"] * 3 + ["B: the new files"]):
        p.box(left + col * i + 8, y, col - 16, 40, label, BLUE if i < 3 else AMBER, bold=True)
    p.text(20, 350, "A sector write stands whole or not at all. From the first write to the last B has no magic and is absent; then it is valid, with the larger", 13, SOFT)
    p.text(20, 368, "generation. A format is the same with another first write (the new header without its magic) and with every body sector zeroed.", 13, SOFT)
    p.line(20, 392, RIGHT, 392)

    p.text(20, 424, "An append: bytes wait in the appender until a record is full, or until sync", 15, bold=True)
    p.box(20, 446, 200, 66, "the appender's buffer|0 to %d bytes" % (PAYLOAD - 1), BLUE)
    p.text(120, 532, "in memory only", 12, SOFT, "middle")
    p.arrow((220, 479), (330, 479))
    p.text(275, 468, "%d bytes," % PAYLOAD, 12, SOFT, "middle")
    p.text(275, 498, "or sync", 12, SOFT, "middle")
    p.box(330, 446, 150, 66, "the appender's|tail", AMBER)
    outs = [
        (446, "at i, below the size", "", WHITE, "record i of its chunk:|1 write"),
        (546, "at the size", "commit Extend: a free|chunk gets a link", GREEN, "record 0 of the new|chunk: 1 write"),
        (646, "reopened n", "commit Extend, and the old|chunk is marked partial, n", GREEN, "record 0 of the new|chunk: 1 write"),
    ]
    for y, tail, what, fill, record in outs:
        mid = y + 33
        if y == 446:
            p.arrow((480, mid), (890, mid))
        else:
            p.arrow((405, 512), (405, mid), (650, mid))
            p.box(650, y, 204, 66, what, fill, 12)
            p.arrow((854, mid), (890, mid))
        p.text(490, mid - 9, tail, 13)
        p.box(890, y, 210, 66, record, GREEN)
    p.arrow((405, 512), (405, 779), (650, 779))
    p.text(490, 770, "closed", 13)
    p.box(650, 752, 204, 54, "refused with 11,|nothing written", ROSE, 12)
    p.text(20, 606, "A stop", 13, bold=True)
    notes = ["before any write: the file is as it", "was, the buffer's bytes are gone;", "within a commit: as above;", "after the commit, before the", "record: the file has a chunk more", "and no record in it;", "after the record: it is there."]
    for i, line in enumerate(notes):
        p.text(20, 628 + 19 * i, line, 12, room=370)
    p.text(20, 840, "A file that is reopened in the middle of a chunk goes on in another chunk; the old chunk's link then says how many records it has, so that a", 13, SOFT)
    p.text(20, 858, "reader reports no hole there. No free chunk: with a rollover directory its oldest file goes first, in a commit of its own; without one the", 13, SOFT)
    p.text(20, 876, "append is refused with 10. Any refusal on the way, a stop too, closes the appender.", 13, SOFT)
    return p.done()


# The crates in bands, the lowest last; docs/crates.svg. A crate leans only on crates of its own band or of lower ones.
BANDS = [
    ("programs and hosts", ["lines", "session", "firmware"]),
    ("C for tests and bench", ["bridge_points", "bridge_write_c", "bridge_c", "bench_port"]),
    ("for tests", ["bridge_write", "bridge", "checksum_vectors", "mix_vectors"]),
    ("demand 3, writes", ["hatch", "power", "writes"]),
    ("on offer", ["points", "store"]),
    ("laws for demand 3", ["reading", "folds", "views", "layout", "safe"]),
    ("files", ["reopen", "files", "append", "remove", "reader"]),
    ("a copy anew", ["format", "commit", "plan"]),
    ("layers", ["header", "directory", "table", "record"]),
    ("a store value, names", ["handles", "marks", "names", "words"]),
    ("ground", ["seal", "medium", "walk", "mix", "checksum", "decimal", "freemap", "runs", "le"]),
]
LAWS = {"hatch", "power", "writes", "reading", "folds", "views", "layout", "safe"}


def crates():
    leans = {name: set(used) for name, (_, used) in listed().items()}
    band = {name: i for i, (_, names) in enumerate(BANDS) for name in names}
    assert set(band) == set(leans), "crates.txt and BANDS differ: %s" % (set(band) ^ set(leans))
    for name, deps in leans.items():
        for dep in deps:
            assert band[dep] >= band[name], "%s leans on %s, which stands above it" % (name, dep)
    high = 60 + 62 * len(BANDS)
    p = Picture("The crates, each band on the ones below it", high)
    p.text(20, 30, "The crates: each leans on its own band and on those below. Blue: code and its proofs. Green: laws alone.", 14, SOFT)
    for i, (label, names) in enumerate(BANDS):
        y = 48 + 62 * i
        p.text(20, y + 29, label, 13, SOFT)
        need = [width_of(name, 14) + 22 for name in names]
        x = 196
        for name, w in zip(names, need):
            p.box(x, y, w, 46, name, GREEN if name in LAWS else BLUE, 14)
            x += w + 8
        assert x <= RIGHT + 8, label
        p.line(20, y + 54, RIGHT, y + 54)
    return p.done()


PICTURES = {"volume.svg": volume, "commit.svg": commit, "crates.svg": crates}

if __name__ == "__main__":
    if sys.argv[1:] not in ([], ["--check"]):
        usage("docs/draw.py [--check]")
    here = os.path.dirname(os.path.abspath(__file__))
    for name, draw in PICTURES.items():
        path = os.path.join(here, name)
        if "--check" not in sys.argv:
            drawn = draw()
            open(path, "w", encoding="utf-8").write(drawn)
        elif not os.path.exists(path) or open(path, encoding="utf-8").read() != draw():
            sys.exit("docs/%s is not what docs/draw.py draws" % name)
    if "--check" in sys.argv:
        print("draw: %s are what docs/draw.py draws" % ", ".join(sorted(PICTURES)))

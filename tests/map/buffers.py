#!/usr/bin/env python3
"""A header is filled in the volume's own sector (02, S-2): in the crates of format and commit, and in those below them, no array of a sector's size is made but one,
for the body sector that `write_body_sector` takes from one copy to the other. A lent array is another's. So no table of 256 numbers is left in the checksum (02, S-10)."""
import glob
import os
import re
import sys

sys.dont_write_bytecode = True
os.chdir(os.path.join(os.path.dirname(os.path.abspath(__file__)), "..", ".."))
sys.path.insert(0, "docs")
from sources import crates as listed

SECTOR = 512
MADE = ["commit::write_body_sector"]
NUMBER = re.compile(r"u(8|16|32|64)$")
TYPE = re.compile(r"u(?:8|16|32|64)|usize|bool|\[.*|[A-Z]\w*[a-z]\w*")
COPY = re.compile(r"= \*\w+;")
TRIED = {
    1: ["let zero = [0u8; 512];", "[0u32; 128]", "[0; 64]", "[0u8; SIZE]", "[0u8; medium::SECTOR]", "[0u8; 2 * 256]", "[[0u8; 64]; 8]", "&[0; 512]", "&[ZERO; 512]", "const TABLE: [u32; 256] = [1, 2];"],
    2: ["let sector: [u8; 512] = *lent;", "fn image() -> [u8; 0x200] { [0; 512] }"],
    0: ["sector: &mut [u8; 512]", "sector: &[u8]", "[0u32; 24]", "[Header; 2]", "[head, head]", "&volume[a..a + 512]", "// as [0u8; 512]"],
}  # fmt: skip


def below(*tops):
    """These crates and all that they name in crates.txt, and so on."""
    found = list(tops)
    for crate in found:
        found += [c for c in listed()[crate][1] if c not in found]
    return found


def size(array):
    """The bytes of `element; count`: where one of the two cannot be read, as many as it may have."""
    element, count = (part.strip() for part in array.rsplit(";", 1))
    width = int(m[1]) // 8 if (m := NUMBER.search(element)) else size(element[1:-1]) if element[:1] == "[" and ";" in element else 8
    return width * (int(count, 0) if re.fullmatch(r"\d\w*", count) else SECTOR)


def arrays(text):
    """The name of the function before each array of a sector's size: made by an expression, a type that is not behind a `&`, or a copy of what is lent."""
    text = re.sub(r"//.*", "", text)
    inner = r"(?:[^\[\]]|\[[^\[\]]*\])*"
    found = [m.start() for m in COPY.finditer(text)]
    for m in re.finditer(rf"(&(?:mut )?)?\[({inner};{inner})\]", text):
        if size(m[2]) >= SECTOR and not (m[1] and TYPE.fullmatch(m[2].rsplit(";", 1)[0].strip())):
            found.append(m.start())
    for at in sorted(found):
        yield (["no function"] + re.findall(r"\bfn (\w+)", text[:at]))[-1]


misread = [text for count, texts in TRIED.items() for text in texts if len(list(arrays(text))) != count]
crates = sorted(set(below("commit", "format")))
sources = [(crate, path) for crate in crates for path in sorted(glob.glob(f"crates/{crate}/src/**/*.rt", recursive=True))]
made = [f"{crate}::{name}" for crate, path in sources for name in arrays(open(path, encoding="utf-8").read())]
print(f"buffers: {len(crates)} crates, those of format and commit and below; arrays of {SECTOR} bytes or more: {', '.join(made) or 'none'}")
for text in misread:
    print("buffers: this script misreads:", text)
if made != MADE:
    print("buffers: there should be:", ", ".join(MADE))
sys.exit(1 if misread or made != MADE else 0)

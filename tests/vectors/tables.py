"""The two tables of 02's S-10 and the steps by them, beside zlib, which shares nothing with ours: every byte from many
states. The numbers are read off the definitions (crates/checksum/specs/Tables.antt); the steps are written here from their
words. So the numbers are held to CRC-32, and not only to one another. And "in every build": the polynomial, entry 8 of the
16, stands in no other source than that of the checksum."""
import glob
import random
import re
import sys
import zlib

ONES = 0xFFFFFFFF
text = open("crates/checksum/specs/Tables.antt", encoding="utf-8").read()


def table(name):
    listed = re.search(r"^%s =\n(.*?)∷ \[\]$" % name, text, re.M | re.S)[1]
    return [int(entry.replace("_", ""), 16) for entry in re.findall(r"0x\w+", listed)]


T256, T16 = table("table256"), table("table16")


def step_by(bits, entries, c, new):
    return c >> bits ^ entries[(c ^ new) % (1 << bits)]


def by_byte(c, b):
    return step_by(8, T256, c, b)


def by_halves(c, b):
    return step_by(4, T16, step_by(4, T16, c, b % 16), b // 16)


def high_half_first(c, b):
    return step_by(4, T16, step_by(4, T16, c, b // 16), b % 16)


def by_zlib(c, b):
    return zlib.crc32(bytes([b]), c ^ ONES) ^ ONES


some = random.Random(10)
states = [0, ONES] + [1 << k for k in range(32)] + [ONES ^ 1 << k for k in range(32)] + [some.getrandbits(32) for _ in range(600)]
pairs = [(c, b) for c in states for b in range(256)]
unlike = [(c, b) for c, b in pairs if not by_byte(c, b) == by_halves(c, b) == by_zlib(c, b)]
homes = [p for p in sorted(glob.glob("crates/*/src/**/*.rt", recursive=True)) if re.search("edb8_?8320", re.sub("//.*", "", open(p, encoding="utf-8").read()))]
caught = sum(high_half_first(0, b) != by_zlib(0, b) for b in range(256))
print("vectors: %d and %d entries, %d bytes and states: %d other than zlib's; with the high half first, %d of 256 bytes from state 0"
      % (len(T256), len(T16), len(pairs), len(unlike), caught))  # fmt: skip
print("vectors: the polynomial stands in", " ".join(homes) or "no source")
for c, b in unlike[:10]:
    print("vectors: state %08x, byte %02x: %08x by the 256, %08x by the 16, %08x by zlib" % (c, b, by_byte(c, b), by_halves(c, b), by_zlib(c, b)))
right = (len(T256), len(T16), homes) == (256, 16, ["crates/checksum/src/running.rt"])
sys.exit(1 if unlike or not caught or not right else 0)

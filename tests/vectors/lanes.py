"""The checksum's lanes beside zlib, which shares nothing with ours. Read off crates/checksum/src/running.rt and specs/Lanes.antt: how
many bytes a block and a lane have, what each lane starts from, the polynomial and FAR. With these a word is moved as `moved` does it,
and lanes are put together in the words of `joined`, over many blocks and states; what is done to a sum there, zlib does."""
import random
import re
import sys
import zlib

ONES = 0xFFFFFFFF
source = open("crates/checksum/src/running.rt", encoding="utf-8").read()
specs = open("crates/checksum/specs/Lanes.antt", encoding="utf-8").read()


def number(pattern, text):
    return int(re.search(pattern, text, re.M)[1].replace("_", ""), 0)


POLY, FAR = number(r"^const POLY: u32 = (\w+);", source), number(r"^const FAR: u32 = (\w+);", source)
BLOCK, LANE = number(r"split_first_chunk::<(\d+)>", source), number(r"^lane = (\d+)$", specs)
STARTS = re.search(r"let mut lanes = \[([c0, ]+)\];", source)[1].split(", ")


def on(c, data):
    """the state after data, from state c"""
    return zlib.crc32(data, c ^ ONES) ^ ONES


def moved(x):
    """bit by bit from the highest: that becomes FAR, the next one a step more"""
    total, k = 0, FAR
    for n in reversed(range(32)):
        total, k = total ^ (x >> n & 1) * k, k >> 1 ^ (k & 1) * POLY
    return total


def joined(sums):
    """each lane's sum moves over the bits of those after it"""
    whole = 0
    for place, c in enumerate(sums):
        whole ^= on(c, bytes(LANE * (len(sums) - 1 - place)))
    return whole


some = random.Random(21)
states = [0, ONES] + [1 << k for k in range(32)] + [some.getrandbits(32) for _ in range(466)]
moves = lanes = back = 0
for c in states:
    block = some.randbytes(BLOCK)
    sums = [on(c if start == "c" else 0, block[LANE * j : LANE * (j + 1)]) for j, start in enumerate(STARTS)]
    moves += moved(c) != on(c, bytes(LANE))
    lanes += joined(sums) != on(c, block)
    back += joined(sums[::-1]) != on(c, block)
print("vectors: %d lanes of %d bytes, FAR %08x, %d states: %d moved and %d blocks put together other than zlib's; in the other order %d"
      % (len(STARTS), LANE, FAR, len(states), moves, lanes, back))  # fmt: skip
sys.exit(1 if moves or lanes or not back or LANE * len(STARTS) != BLOCK else 0)

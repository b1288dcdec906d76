"""The volume of 01's Hosts example, built from 01's sections Header, Directory
entry, Link, Record and Commit alone, without the Rust: Python's own CRC and a
SplitMix64 step from its published form. Prints a sum of the whole volume after
format, after each create and after sync, one a line; then with the generation of
copy A and a byte of the record changed, each sealed again.

The sum is FNV-1a of 64 bits. It is no CRC-32: that of a volume does not change with
what stands in a sector that ends in its own CRC-32, as the last lines here assert."""
import zlib

MASK = (1 << 64) - 1


def mix(value):
    z = (value + 0x9E3779B97F4A7C15) & MASK
    z = ((z ^ (z >> 30)) * 0xBF58476D1CE4E5B9) & MASK
    z = ((z ^ (z >> 27)) * 0x94D049BB133111EB) & MASK
    return z ^ (z >> 31)


def sector(fields, seal=False):
    """A zeroed sector with (offset, bytes) fields; sealed: "508 the CRC of bytes 0 to 507"."""
    s = bytearray(512)
    for offset, data in fields:
        s[offset : offset + len(data)] = data
    if seal:
        s[508:] = number(zlib.crc32(s[:508]), 4)
    return bytes(s)


def number(value, width):
    return value.to_bytes(width, "little")


volume = bytearray(128 * 512)
STORE_ID = mix(1 ^ 0)  # "mixed from seed XOR entropy"


def put(index, data):
    volume[512 * index : 512 * index + 512] = data
    return data


def copy(base, generation, next_id, cursor, files):
    """One metadata copy. Files are in slots 0, 1, .., each with one chunk of the same number."""
    names = [(64 * i, name + bytes(40 - len(name)) + number(i + 1, 4)) for i, name in enumerate(files)]
    links = [(4 * i, number(i + 1, 2) + number(0, 2)) for i in range(len(files))]
    body = [sector(names)] + [sector([])] * 7 + [sector(links)]
    for k, data in enumerate(body):
        put(base + 1 + k, data)
    fields = [(0, b"CYCLING-STORE"), (16, number(1, 2)), (18, number(8, 2)), (20, number(1, 2))]
    fields += [(24, number(STORE_ID, 8)), (32, number(generation, 8)), (40, number(next_id, 4))]
    fields += [(44, number(cursor, 4)), (48, number(16, 4)), (52, number(4, 4))]
    fields += [(64 + 4 * k, number(zlib.crc32(data), 4)) for k, data in enumerate(body)]
    put(base, sector(fields, seal=True))


def fnv1a(data):
    h = 0xCBF29CE484222325
    for byte in data:
        h = (h ^ byte) * 0x100000001B3 & MASK
    return h


def show():
    print("sum %016x" % fnv1a(volume))
    return zlib.crc32(volume)


copy(0, 1, 1, 0, [])  # format 4 1: no valid copy, so A
show()
copy(32, 2, 2, 1, [b"a/1"])  # create a/1 -: into the other copy, B
show()
copy(0, 3, 3, 2, [b"a/1", b"b"])  # create b -: into A
show()
# append hello and sync: file 2, its chunk 1, index 0, so sector 64 + 1 * 4 + 0
record = [(0, b"CSRD"), (4, number(STORE_ID, 8)), (12, number(2, 4)), (16, number(0, 4)), (20, number(5, 2)), (22, b"hello")]
put(68, sector(record, seal=True))
crc = show()
# What a CRC-32 of the volume does not see.
copy(0, 4, 3, 2, [b"a/1", b"b"])
assert show() == crc
put(68, sector(record + [(22, b"j")], seal=True))
assert show() == crc

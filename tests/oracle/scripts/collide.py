"""Names for audit script 02: pairs n1, n2 of six letters or digits such that the
directory sector with n1 and id 1 has the CRC of the one with n2 and id 2.

The CRC is linear in the XOR of the bytes, so this looks for six XOR differences
of the names that cancel the difference of the ids, by two halves that meet."""
import itertools
import string
import zlib

ALPHABET = (string.ascii_lowercase + string.digits).encode()
ZERO = zlib.crc32(bytes(512))


def effect(offset, difference):
    sector = bytearray(512)
    sector[offset] = difference
    return zlib.crc32(sector) ^ ZERO


def sector(name, file_id):
    return zlib.crc32(name + bytes(34) + bytes([file_id]) + bytes(471))


pair = {}
for a, b in itertools.product(ALPHABET, repeat=2):
    pair.setdefault(a ^ b, (a, b))
effects = [{d: effect(i, d) for d in pair} for i in range(6)]
first = {}
for d in itertools.product(pair, repeat=3):
    first[effects[0][d[0]] ^ effects[1][d[1]] ^ effects[2][d[2]]] = d
found = 0
for d in itertools.product(pair, repeat=3):
    rest = effect(40, 1 ^ 2) ^ effects[3][d[0]] ^ effects[4][d[1]] ^ effects[5][d[2]]
    if rest in first:
        n1, n2 = (bytes(pair[x][k] for x in first[rest] + d) for k in (0, 1))
        assert sector(n1, 1) == sector(n2, 2)
        print(n1.decode(), n2.decode())
        found += 1
        if found == 4:
            break

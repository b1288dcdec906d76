"""What the program checksum_vectors must print: CRC-32 (IEEE 802.3) of each case,
8 hex digits a line. The values are those of Python's zlib.crc32, which is the
zlib library's code and shares nothing with ours or with the Rust."""
import zlib

# p[i] = (i * 37 + 11) mod 256
PATTERN = bytes((i * 37 + 11) % 256 for i in range(4093))


def show(crc):
    print("%08x" % crc)


show(zlib.crc32(b"123456789"))  # the standard's check value, cbf43926
show(zlib.crc32(b"56789", zlib.crc32(b"1234")))  # the same in two parts
show(zlib.crc32(b""))
for byte in range(256):
    show(zlib.crc32(bytes([byte])))
for length in range(1, 65):
    show(zlib.crc32(PATTERN[:length]))
show(zlib.crc32(PATTERN))
for block in range(1, 9):
    for length in range(504 * block - 8, 504 * block + 9):
        show(zlib.crc32(PATTERN[:length]))
for first in range(1, 65):
    show(zlib.crc32(PATTERN[first:], zlib.crc32(PATTERN[:first])))

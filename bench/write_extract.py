#!/usr/bin/env python3
"""Writes a large extract with raw blobs: dense nodes, most without tags, and ways. Usage: write_extract.py FILE [NODES [WAYS]]"""
import random
import struct
import sys

BLOCK = 8000
REFS = 10


def varint(n):
    out = bytearray()
    while n > 127:
        out.append(n & 127 | 128)
        n >>= 7
    out.append(n)
    return bytes(out)


def zigzag(n):
    return 2 * n if n >= 0 else -2 * n - 1


def field(number, body):
    return varint(number * 8 + 2) + varint(len(body)) + body


def number(at, n):
    return varint(at * 8) + varint(n)


def packed(numbers):
    return b"".join(map(varint, numbers))


def differences(numbers):
    last = 0
    for n in numbers:
        yield zigzag(n - last)
        last = n


def frame(kind, raw):
    blob = field(1, raw) + number(2, len(raw))
    header = field(1, kind) + number(3, len(blob))
    return struct.pack(">I", len(header)) + header + blob


def block(strings, group):
    return frame(b"OSMData", field(1, b"".join(field(1, s) for s in strings)) + field(2, group))


def dense(first, count, draw):
    """Nodes with ids from `first` on, near one another; each twentieth has two tags."""
    strings = [b"", b"highway", b"crossing", b"name"] + [b"name %d" % n for n in range(50)]
    lat, lon = draw.randrange(-800000000, 800000000), draw.randrange(-1700000000, 1700000000)
    lats, lons, pairs = [], [], []
    for n in range(count):
        lat += draw.randrange(-2000, 2001)
        lon += draw.randrange(-2000, 2001)
        lats.append(lat)
        lons.append(lon)
        pairs += [1, 2, 3, 4 + n % 50, 0] if n % 20 == 0 else [0]
    ids = range(first, first + count)
    message = b"".join(field(n, packed(differences(list_of))) for n, list_of in ((1, ids), (8, lats), (9, lons)))
    return block(strings, field(2, message + field(10, packed(pairs))))


def ways(first, count, nodes, draw):
    """Ways of ten nodes each with two tags."""
    strings = [b"", b"highway", b"residential", b"building", b"yes", b"source", b"survey"]
    group = b""
    for n in range(first, first + count):
        start = draw.randrange(1, max(2, nodes - REFS))
        keys = [1, 5] if n % 2 else [3, 5]
        group += field(3, number(1, n) + field(2, packed(keys)) + field(3, packed([k + 1 for k in keys])) + field(8, packed(differences(range(start, start + REFS)))))
    return block(strings, group)


def main():
    path = sys.argv[1]
    nodes = int(sys.argv[2]) if len(sys.argv) > 2 else 1_000_000
    count = int(sys.argv[3]) if len(sys.argv) > 3 else 100_000
    draw = random.Random(7)
    with open(path, "wb") as out:
        out.write(frame(b"OSMHeader", field(4, b"OsmSchema-V0.6") + field(4, b"DenseNodes")))
        for first in range(0, nodes, BLOCK):
            out.write(dense(first + 1, min(BLOCK, nodes - first), draw))
        for first in range(0, count, BLOCK):
            out.write(ways(first + 1, min(BLOCK, count - first), nodes, draw))


if __name__ == "__main__":
    main()

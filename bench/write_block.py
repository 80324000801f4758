#!/usr/bin/env python3
"""Writes a raw block of so many bytes or elements of a kind. Usage: write_block.py FILE KIND COUNT"""
import random
import sys

from write_extract import dense, field, number, ways

USUAL = {"dense": lambda n, draw: dense(1, n, draw), "ways": lambda n, draw: ways(1, n, 1_000_000, draw)}

TABLE = field(1, field(1, b"") + field(1, b"k") + field(1, b"v"))


def many(n, piece):
    return piece * (n // len(piece))


# Blocks of about so many bytes that hold as much as bytes can.
UNKIND = {
    "empty_groups": lambda n: TABLE + many(n, field(2, b"")),
    "empty_strings": lambda n: field(1, many(n, field(1, b""))),
    "empty_tables": lambda n: many(n, field(1, b"")),
    "empty_dense": lambda n: TABLE + field(2, many(n, field(2, b""))),
    "small_ways": lambda n: TABLE + field(2, many(n, field(3, number(1, 1)))),
    "small_nodes": lambda n: TABLE + field(2, many(n, field(1, number(1, 2) + number(8, 0) + number(9, 0)))),
    "three_byte_dense": lambda n: TABLE + field(2, field(2, field(1, b"\2" * (n // 3)) + field(8, b"\0" * (n // 3)) + field(9, b"\0" * (n // 3)))),
    "four_byte_dense": lambda n: TABLE + field(2, field(2, field(1, b"\2" * (n // 4)) + field(8, b"\0" * (n // 4)) + field(9, b"\0" * (n // 4)) + field(10, b"\0" * (n // 4)))),
    "tags_of_a_node": lambda n: TABLE + field(2, field(1, number(1, 2) + field(2, b"\1" * (n // 2)) + field(3, b"\2" * (n // 2)) + number(8, 0) + number(9, 0))),
    "refs_of_a_way": lambda n: TABLE + field(2, field(3, number(1, 1) + field(8, b"\2" * n))),
    "members_of_a_relation": lambda n: TABLE + field(2, field(4, number(1, 1) + field(9, b"\2" * (n // 2)) + field(10, b"\0" * (n // 2)))),
}


def block_in_frame(frame):
    """The raw block in a frame of write_extract."""
    header = int.from_bytes(frame[:4], "big")
    at, length = 4 + header + 1, 0
    shift = 0
    while True:
        byte = frame[at]
        length |= (byte & 127) << shift
        shift += 7
        at += 1
        if byte < 128:
            return frame[at:at + length]


def main():
    path, kind, count = sys.argv[1], sys.argv[2], int(sys.argv[3])
    raw = block_in_frame(USUAL[kind](count, random.Random(7))) if kind in USUAL else UNKIND[kind](count)
    with open(path, "wb") as out:
        out.write(raw)


if __name__ == "__main__":
    main()

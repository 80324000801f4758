#!/usr/bin/env python3
"""Writes an extract whose frames of elements stand in it several times. Usage: copies.py EXTRACT COUNT OUT"""
import sys

with open(sys.argv[1], "rb") as file:
    extract = file.read()


def varint(at):
    shift = value = 0
    while True:
        byte = extract[at]
        value |= (byte & 127) << shift
        at, shift = at + 1, shift + 7
        if byte < 128:
            return value, at


at, header, rest = 0, b"", b""
while at < len(extract):
    start = at
    size = int.from_bytes(extract[at:at + 4], "big")
    at, end, length = at + 4, at + 4 + size, 0
    kind = b""
    while at < end:
        key, at = varint(at)
        value, at = varint(at)
        if key & 7 == 2:
            if key >> 3 == 1:
                kind = extract[at:at + value]
            at += value
        elif key >> 3 == 3:
            length = value
    at = end + length
    if kind == b"OSMHeader":
        header += extract[start:at]
    else:
        rest += extract[start:at]
with open(sys.argv[3], "wb") as file:
    file.write(header + rest * int(sys.argv[2]))

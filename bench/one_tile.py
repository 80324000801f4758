#!/usr/bin/env python3
"""Writes the bytes of the one tile of an archive to a file. Usage: one_tile.py ARCHIVE TILE"""
import struct
import sys

with open(sys.argv[1], "rb") as file:
    archive = file.read()
at, length = struct.unpack("<QQ", archive[56:72])
with open(sys.argv[2], "wb") as file:
    file.write(archive[at:at + length])

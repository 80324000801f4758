#!/usr/bin/env python3
"""Packs the tiles FOLDER/ZOOM/COLUMN/ROW.pbf that another program wrote into an archive; empty files are left out. With COUNT it packs so
many tiles from id 0 on: those of the folder over and over, each with a field behind it that readers skip, so that no two are equal. Usage:
pack_tiles.py FOLDER ARCHIVE [COUNT]"""
import glob
import os
import sys

sys.path.insert(0, os.path.dirname(os.path.abspath(__file__)))
import plain_archive


def number(zoom, column, row):
    place, side = 0, 1 << zoom
    while side > 1:
        side //= 2
        right, lower = column >= side, row >= side
        place += side * side * ((3 * right) ^ lower)
        column, row = column % side, row % side
        if not lower:
            if right:
                column, row = side - 1 - column, side - 1 - row
            column, row = row, column
    return (4 ** zoom - 1) // 3 + place


tiles = []
for name in glob.glob(f"{sys.argv[1]}/*/*/*.pbf"):
    zoom, column, row = (int(part) for part in name[:-4].split("/")[-3:])
    with open(name, "rb") as file:
        content = file.read()
    if content:
        tiles.append((number(zoom, column, row), content))
tiles.sort()
if len(sys.argv) > 3:
    short = [content for _, content in tiles if len(content) < 4096]
    tiles = [(n, short[n % len(short)] + b"\x78" + plain_archive.varint(n)) for n in range(int(sys.argv[3]))]
with open(sys.argv[2], "wb") as file:
    file.write(plain_archive.archive(tiles, b"{}"))
print(f"packed: {len(tiles)} tiles, {sum(len(content) for _, content in tiles)} bytes of tiles")

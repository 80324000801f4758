#!/usr/bin/env python3
"""Writes the tiles of one zoom of an archive to files FOLDER/ZOOM/COLUMN/ROW.pbf, as GDAL reads a zoom. Usage: tiles_by_place.py ARCHIVE ZOOM FOLDER"""
import os
import subprocess
import sys
import tempfile


def place(zoom, number):
    """The column and row of a tile by its number among those of its zoom, along the Hilbert curve."""
    x = y = 0
    side = 1
    while side < 2**zoom:
        right = 1 & (number // 2)
        lower = 1 & (number ^ right)
        if lower == 0:
            if right == 1:
                x, y = side - 1 - x, side - 1 - y
            x, y = y, x
        x, y = x + side * right, y + side * lower
        number //= 4
        side *= 2
    return x, y


def main():
    archive, zoom, folder = sys.argv[1], int(sys.argv[2]), sys.argv[3]
    with tempfile.TemporaryDirectory() as work:
        here = os.path.dirname(os.path.abspath(__file__))
        subprocess.run([sys.executable, f"{here}/all_tiles.py", archive, str(zoom), work], check=True)
        first = (4**zoom - 1) // 3
        for name in os.listdir(f"{work}/{zoom}"):
            x, y = place(zoom, int(name[:-4]) - first)
            os.makedirs(f"{folder}/{zoom}/{x}", exist_ok=True)
            os.replace(f"{work}/{zoom}/{name}", f"{folder}/{zoom}/{x}/{y}.pbf")


main()

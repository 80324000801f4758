#!/usr/bin/env python3
"""Writes the tiles of an archive from one zoom on to files ZOOM/NUMBER.pbf in a folder, by a reader of its own. Usage:
all_tiles.py ARCHIVE ZOOM FOLDER"""
import os
import struct
import sys

with open(sys.argv[1], "rb") as file:
    archive = file.read()
root_at, root_len, _, _, leaves_at, _, tiles_at = struct.unpack("<7Q", archive[8:64])


def directory(at, length):
    numbers, value, shift = [], 0, 0
    for byte in archive[at:at + length]:
        value |= (byte & 127) << shift
        shift += 7
        if byte < 128:
            numbers.append(value)
            value = shift = 0
    count, entries, tile, offset = numbers[0], [], 0, 0
    ids, runs, lengths, offsets = (numbers[1 + k * count:1 + (k + 1) * count] for k in range(4))
    for n in range(count):
        tile += ids[n]
        offset = offset + lengths[n - 1] if offsets[n] == 0 else offsets[n] - 1
        if runs[n] == 0:
            entries += directory(leaves_at + offset, lengths[n])
        else:
            entries += [(tile + k, offset, lengths[n]) for k in range(runs[n])]
    return entries


for tile, offset, length in directory(root_at, root_len):
    zoom = next(z for z in range(27) if tile < (4 ** (z + 1) - 1) // 3)
    if zoom < int(sys.argv[2]):
        continue
    os.makedirs(f"{sys.argv[3]}/{zoom}", exist_ok=True)
    with open(f"{sys.argv[3]}/{zoom}/{tile}.pbf", "wb") as file:
        file.write(archive[tiles_at + offset:tiles_at + offset + length])

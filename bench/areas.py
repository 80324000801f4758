#!/usr/bin/env python3
"""Holds the areas of relations in an archive against those that osmium assembles.
Usage: areas.py PROGRAM ARCHIVE ZOOM GEOJSON, where the archive's layer has no buffer and no tolerance, so that the pieces of a relation sum up to it.
Prints each relation whose area differs by more than a hundredth and one unit for each of its corners, and how many agree."""
import collections
import json
import math
import subprocess
import sys


def place(lon, lat, zoom):
    """A location on the grid of a zoom."""
    scale = 4096 * 2**zoom
    y = math.log(math.tan(math.pi / 4 + math.radians(lat) / 2))
    return (lon + 180) / 360 * scale, (1 - y / math.pi) / 2 * scale


def doubled(ring):
    return sum(a[0] * b[1] - b[0] * a[1] for a, b in zip(ring, ring[1:] + ring[:1]))


def rings_of(integers):
    """The rings of the integers of a polygon (Mapbox Vector Tile 2.1, section 4.3)."""
    x = y = at = 0
    rings = []
    while at < len(integers):
        kind, count = integers[at] & 7, integers[at] >> 3
        at += 1
        if kind == 1:
            rings.append([])
        for _ in range(count if kind != 7 else 0):
            dx, dy = ((n >> 1) ^ -(n & 1) for n in integers[at:at + 2])
            x, y, at = x + dx, y + dy, at + 2
            rings[-1].append((x, y))
    return rings


def shown(program, archive, zoom, box):
    """The doubled areas of the relations in the tiles of a box."""
    areas = collections.Counter()
    for x in range(box[0], box[2] + 1):
        for y in range(box[1], box[3] + 1):
            text = subprocess.run([program, "show", archive, str(zoom), str(x), str(y)], capture_output=True, text=True, check=True).stdout
            for line in text.split("\n"):
                if line.startswith("polygon "):
                    _, number, integers, _ = line.split(" ", 3)
                    areas[int(number) // 10] += sum(map(doubled, rings_of(list(map(int, integers.split(","))))))
    return areas


def main():
    program, archive, zoom, name = sys.argv[1], sys.argv[2], int(sys.argv[3]), sys.argv[4]
    wanted, corners, points = collections.Counter(), collections.Counter(), []
    for feature in json.load(open(name))["features"]:
        # osmium numbers areas: twice the id, and one more for a relation
        number = int(feature["id"][1:])
        if feature["geometry"]["type"] != "MultiPolygon" or number % 2 == 0:
            continue
        for polygon in feature["geometry"]["coordinates"]:
            for k, ring in enumerate(polygon):
                placed = [place(lon, lat, zoom) for lon, lat in ring]
                points += placed
                corners[number // 2] += len(ring)
                wanted[number // 2] += abs(doubled(placed[:-1])) * (1 if k == 0 else -1)
    box = [int(f(p[k] for p in points) // 4096) for f, k in ((min, 0), (min, 1), (max, 0), (max, 1))]
    areas = shown(program, archive, zoom, box)
    agree = 0
    for number in sorted(set(wanted) | set(areas)):
        near = abs(areas[number] - wanted[number]) <= wanted[number] / 100 + 2 * 100 * corners[number]
        agree += near
        if not near:
            print("relation %d: %d, and by osmium %d" % (number, areas[number] / 2, wanted[number] / 2))
    print("relations: %d by the archive, %d by osmium, %d agree" % (len(areas), len(wanted), agree))


if __name__ == "__main__":
    main()

#!/usr/bin/env python3
"""Shows each tile of a folder by the proved program and compares the features of each layer with those that GDAL counts. Usage:
shown_features.py PROGRAM ARCHIVE FOLDER"""
import collections
import glob
import os
import subprocess
import sys

program, archive, folder = sys.argv[1:]


def output(*words):
    return subprocess.run(words, capture_output=True, text=True, errors="replace").stdout.splitlines()


def shown(zoom, column, row):
    layers = collections.Counter()
    for line in output(program, "show", archive, zoom, column, row):
        if line.startswith("layer "):
            _, name, count = line.split(" ", 2)
            layers[name] += int(count)
    return layers


def counted(name):
    layers, layer = collections.Counter(), None
    for line in output("ogrinfo", "-ro", "-al", "-so", f"MVT:{name}"):
        if line.startswith("Layer name: "):
            layer = line[len("Layer name: "):]
        elif line.startswith("Feature Count: "):
            layers[layer] += int(line[len("Feature Count: "):])
    return layers


tiles = features = differ = 0
for name in sorted(glob.glob(f"{folder}/*/*/*.pbf")):
    if os.path.getsize(name) == 0:
        continue
    mine, gdal = shown(*name[:-4].split("/")[-3:]), counted(name)
    tiles += 1
    features += sum(mine.values())
    if mine != gdal:
        differ += 1
        print(f"{name}: shown {dict(mine)}, GDAL counts {dict(gdal)}")
print(f"shown: {tiles} tiles, {features} features, {differ} differ from GDAL's counts")

#!/usr/bin/env python3
"""Writes an extract of a region so many times side by side, each a tenth of a degree east of the one before, with ids of its own and with
raw blobs; its nodes and ways alone. It needs osmium. Usage: side_by_side.py EXTRACT COUNT OUT"""
import os
import subprocess
import sys
import tempfile

STEP = 1000000      # of 10^-7 degrees
IDS = 10**11        # between regions


def moved(line, copy):
    """A line of OPL with its ids and its longitude moved."""
    words = line.split(" ")
    kind = words[0][0]
    words[0] = f"{kind}{int(words[0][1:]) + IDS * copy}"
    for place, word in enumerate(words):
        if kind == "n" and word.startswith("x") and len(word) > 1:
            words[place] = f"x{float(word[1:]) + STEP * copy / 1e7:.7f}"
        elif kind == "w" and word.startswith("N") and len(word) > 1:
            words[place] = "N" + ",".join(f"n{int(ref.split('x')[0][1:]) + IDS * copy}" for ref in word[1:].split(","))
    return " ".join(words)


extract, count, out = sys.argv[1], int(sys.argv[2]), sys.argv[3]
text = subprocess.run(["osmium", "cat", "--no-progress", "-t", "node", "-t", "way", "-f", "opl", extract], capture_output=True, text=True, check=True).stdout
lines = text.rstrip("\n").split("\n")
with tempfile.TemporaryDirectory() as work:
    path = os.path.join(work, "all.opl")
    with open(path, "w", encoding="utf-8") as file:
        for kind in "nw":
            for copy in range(count):
                file.writelines(moved(line, copy) + "\n" for line in lines if line[0] == kind)
    subprocess.run(["osmium", "cat", "--no-progress", "--overwrite", "-f", "pbf,pbf_compression=none", "-o", out, path], check=True)

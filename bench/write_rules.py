#!/usr/bin/env python3
"""Writes a profile of so many rules for points, each for a key of its own. Usage: write_rules.py FILE COUNT"""
import sys

path, count = sys.argv[1], int(sys.argv[2])
with open(path, "w") as out:
    out.write('format = 1\nmaxzoom = 0\n\n[[layer]]\nid = "points"\n')
    for n in range(count):
        out.write(f'\n[[rule]]\nlayer = "points"\nkind = "point"\nwhen = ["no_element_has_{n}"]\n')

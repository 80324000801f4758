#!/usr/bin/env python3
"""Writes tilemaker's settings for what bench/peer.toml builds, up to zoom 14 or another one. Usage: peer_config.py MINZOOM OUT [MAXZOOM]"""
import json
import sys

first = int(sys.argv[1])
last = int(sys.argv[3]) if len(sys.argv) > 3 else 14
layer = {"minzoom": first, "maxzoom": last}
settings = {
    "minzoom": first, "maxzoom": last, "basezoom": last, "include_ids": True, "combine_below": 0, "compress": "none",
    "name": "peer", "version": "1", "description": "peer", "mvt_version": 2,
}
with open(sys.argv[2], "w", encoding="utf-8") as file:
    json.dump({"layers": {name: layer for name in ("amenities", "roads", "areas")}, "settings": settings}, file)

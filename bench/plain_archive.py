#!/usr/bin/env python3
"""A plain reader and writer of PMTiles 3 archives of uncompressed vector tiles, beside the proved ones.

plain_archive.py bench FOLDER: times 100,000 added tiles, and opening an archive of 100,000 entries with 100,000 look-ups.
"""
import bisect, hashlib, json, struct, sys, time

def varint(n):
    out = bytearray()
    while n >= 128:
        out.append(n % 128 + 128)
        n //= 128
    out.append(n)
    return bytes(out)

def directory(entries):
    out = bytearray(varint(len(entries)))
    last = 0
    for (i, r, l, o) in entries:
        out += varint(i - last)
        last = i
    for e in entries: out += varint(e[1])
    for e in entries: out += varint(e[2])
    end = None
    for (i, r, l, o) in entries:
        out += varint(0 if o == end else o + 1)
        end = o + l
    return bytes(out)

def plan(entries):
    root = directory(entries)
    if len(root) <= 16257: return root, b""
    size = 4096
    while True:
        leaves, named = bytearray(), []
        for k in range(0, len(entries), size):
            text = directory(entries[k:k + size])
            named.append((entries[k][0], 0, len(text), len(leaves)))
            leaves += text
        root = directory(named)
        if len(root) <= 16257: return root, bytes(leaves)
        size *= 2

def header(root, meta, leaves, tiles, counts, zooms, bounds):
    at = [127, root, 127 + root, meta, 127 + root + meta, leaves, 127 + root + meta + leaves, tiles]
    w, s, e, n = bounds
    return (b"PMTiles\x03" + struct.pack("<11Q", *at, *counts) + bytes([1, 1, 1, 1, *zooms])
            + struct.pack("<4i", w, s, e, n) + bytes([zooms[0]]) + struct.pack("<2i", (w + e) // 2, (s + n) // 2))

WORLD = (-1800000000, -850000000, 1800000000, 850000000)

def archive(tiles, metadata, zooms=(0, 14), bounds=WORLD):
    places, contents, entries, end, count = {}, [], [], 0, 0
    for (i, bytes_) in tiles:
        count += 1
        key = hashlib.sha256(bytes_).digest()
        if key not in places:
            places[key] = end
            contents.append(bytes_)
            end += len(bytes_)
        o = places[key]
        if entries and entries[-1][0] + entries[-1][1] == i and entries[-1][3] == o and entries[-1][1] < 2**32 - 1:
            e = entries[-1]
            entries[-1] = (e[0], e[1] + 1, e[2], e[3])
        else:
            entries.append((i, 1, len(bytes_), o))
    root, leaves = plan(entries)
    head = header(len(root), len(metadata), len(leaves), end, (count, len(entries), len(contents)), zooms, bounds)
    return head + root + metadata + leaves + b"".join(contents)

class Bad(Exception): pass

def read_varint(b, at):
    n = shift = 0
    for k in range(10):
        if at >= len(b): raise ValueError("cut")
        c = b[at]; at += 1
        if k == 9 and c > 1: raise ValueError("long")
        n |= (c & 127) << shift
        if c < 128: return n, at
        shift += 7
    raise ValueError("long")

def read_directory(b):
    """The entries, or None where the bytes are no directory."""
    try:
        numbers, at = [], 0
        while at < len(b):
            n, at = read_varint(b, at)
            numbers.append(n)
    except ValueError:
        return None
    if not numbers or len(numbers) != 1 + 4 * numbers[0]: return None
    n, out, last, end = numbers[0], [], None, None
    for k in range(n):
        step, run, length, code = (numbers[1 + c * n + k] for c in range(4))
        if k == 0:
            if code == 0: return None
            i, o = step, code - 1
        else:
            if step == 0: return None
            i, o = last + step, (end if code == 0 else code - 1)
        if run >= 2**32 or not 1 <= length < 2**32 or i + max(run - 1, 0) >= 2**64 or o + length >= 2**64: return None
        out.append((i, run, length, o))
        last, end = i, o + length
    return out

def open_archive(b):
    """(place of the tiles, entries), or Bad(reason, place)."""
    if len(b) < 127: raise Bad("Short", len(b))
    if b[:7] != b"PMTiles": raise Bad("Magic", 0)
    if b[7] != 3: raise Bad("Version", 7)
    for k in (97, 98):
        if b[k] != 1: raise Bad("Compressed", k)
    if b[99] != 1: raise Bad("TileType", 99)
    ra, rl, ma, ml, la, ll, ta, tl = struct.unpack_from("<8Q", b, 8)
    for place, a, l in ((8, ra, rl), (24, ma, ml), (40, la, ll), (56, ta, tl)):
        if a + l > len(b): raise Bad("Section", place)
    entries, following = [], 0
    def walk(at, length, level):
        nonlocal following
        found = read_directory(b[at:at + length])
        if found is None: raise Bad("Directory", at)
        for (i, run, l, o) in found:
            if run:
                if i < following: raise Bad("Order", i)
                if o + l > tl: raise Bad("Section", i)
                entries.append((i, run, l, o))
                following = i + run
            else:
                if o + l > ll: raise Bad("Section", i)
                if level == 3: raise Bad("Depth", la + o)
                walk(la + o, l, level + 1)
    walk(ra, rl, 0)
    return ta, entries

def tile(b, opened, i):
    ta, entries = opened
    k = bisect.bisect_right(entries, i, key=lambda e: e[0]) - 1
    if k < 0: return None
    (first, run, l, o) = entries[k]
    return b[ta + o:ta + o + l] if i < first + run else None

METADATA = json.dumps({"name": "map", "vector_layers": [{"fields": {"amenity": "String"}, "id": "nodes"}]}, separators=(",", ":")).encode()

def bench(folder):
    content = lambda k: (k % 50000).to_bytes(4, "little") * 64
    tiles = [(2 * k, content(k)) for k in range(100000)]
    start = time.process_time()
    text = archive(tiles, METADATA)
    written = time.process_time()
    with open(f"{folder}/plain.pmtiles", "wb") as out: out.write(text)
    begun = time.process_time()
    opened = open_archive(text)
    read = time.process_time()
    found = sum(tile(text, opened, 2 * k) == content(k) for k in range(100000))
    asked = time.process_time()
    print(f"plain: {len(text)} bytes, {len(opened[1])} entries, {found} tiles found")
    print(f"plain: write {written - start:.2f} s, open {read - begun:.2f} s, 100000 look-ups {asked - read:.2f} s")

if __name__ == "__main__":
    if sys.argv[1:2] == ["bench"]: bench(sys.argv[2])
    else: sys.exit(__doc__)

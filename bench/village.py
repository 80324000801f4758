#!/usr/bin/env python3
"""Writes the extract of a small village with raw blobs: streets with names, a river, houses, a school round a courtyard, a wood, a clearing in it,
meadows, a lake with an island, and named places.
Usage: village.py FILE. The same bytes each time; crates/tilebuild/data/village.pbf is made by it."""
import sys

from write_extract import differences, field, frame, number, packed, zigzag

LAT, LON = 480120000, 91450000  # the market place, in units of 100 nanodegrees
STEP_LAT, STEP_LON = 9000, 13500  # about 100 metres


class Draw:
    """Numbers that look drawn and are the same on each machine."""

    def __init__(self, seed):
        self.state = seed

    def __call__(self, below):
        self.state = (self.state * 6364136223846793005 + 1442695040888963407) % 2**64
        return (self.state >> 33) % below


class Map:
    def __init__(self):
        self.nodes, self.ways, self.relations = [], [], []

    def node(self, x, y, tags=()):
        """A node at x to the east and y to the north of the market place, in hundredths of a step."""
        self.nodes.append((LAT + y * STEP_LAT // 100, LON + x * STEP_LON // 100, tags))
        return len(self.nodes)

    def way(self, refs, tags):
        self.ways.append((refs, tags))
        return len(self.ways)

    def line(self, points, tags):
        self.way([self.node(x, y) for x, y in points], tags)

    def area(self, points, tags):
        refs = [self.node(x, y) for x, y in points]
        return self.way(refs + refs[:1], tags)

    def multipolygon(self, points, holes, tags):
        """An area with holes: its outer ring is two ways, of which the second goes the other way round."""
        refs = [self.node(x, y) for x, y in points]
        half = len(refs) // 2
        outer = [self.way(refs[:half + 1], []), self.way((refs[half:] + refs[:1])[::-1], [])]
        inner = [self.area(hole, []) for hole in holes]
        self.relations.append(([(way, "outer") for way in outer] + [(way, "inner") for way in inner], [("type", "multipolygon")] + tags))


def streets(m):
    """A grid of streets that share the nodes of their crossings, bent a little."""
    crossing = {(i, j): m.node(100 * i + 6 * j * j, 100 * j - 5 * i * i) for i in range(-3, 4) for j in range(-2, 3)}
    names = ["Mill Lane", "School Street", "Main Street", "Church Street", "Station Road"]
    for j in range(-2, 3):
        kind = "primary" if j == 0 else "residential"
        m.way([crossing[i, j] for i in range(-3, 4)], [("highway", kind), ("name", names[j + 2])])
    for i in range(-3, 4):
        m.way([crossing[i, j] for j in range(-2, 3)], [("highway", "residential"), ("name", "Row %d" % (i + 4))])
    m.line([(-700, 40), (-520, 10), (-345, -30)], [("highway", "primary"), ("name", "Main Street"), ("ref", "B 31")])
    m.line([(345, -60), (520, -30), (800, 60)], [("highway", "primary"), ("name", "Main Street"), ("ref", "B 31")])
    m.line([(-80, 215), (-60, 330), (20, 420), (180, 470)], [("highway", "footway")])


def houses(m, draw):
    for i in range(-3, 3):
        for j in range(-2, 2):
            for k in range(8):
                x = 100 * i + 6 * j * j + 14 + 19 * (k % 4) + draw(4)
                y = 100 * j - 5 * i * i + (18 if k < 4 else 64) + draw(6)
                w, h = 9 + draw(5), 10 + draw(7)
                tags = [("building", "yes")]
                if draw(6) == 0:
                    tags = [("building", "barn")]
                m.area([(x, y), (x + w, y), (x + w, y + h), (x, y + h)], tags)


def land(m):
    wood = [(-420, 240), (-300, 330), (-60, 340), (40, 430), (-40, 610), (-330, 640), (-520, 470)]
    m.multipolygon(wood, [[(-250, 430), (-180, 440), (-190, 500), (-260, 490)]], [("landuse", "forest"), ("name", "Beech Wood")])
    m.area([(120, 250), (330, 240), (420, 330), (330, 430), (160, 400)], [("landuse", "meadow")])
    m.area([(-360, -250), (360, -270), (390, 230), (-340, 235)], [("landuse", "residential")])
    lake = [(470, 120), (560, 90), (640, 130), (660, 210), (590, 270), (500, 240)]
    m.multipolygon(lake, [[(560, 170), (600, 165), (605, 200), (570, 210)]], [("natural", "water"), ("name", "Village Lake")])
    school = [(40, 207), (92, 207), (92, 231), (40, 231)]
    m.multipolygon(school, [[(52, 213), (80, 213), (80, 225), (52, 225)]], [("building", "school")])
    m.line([(-800, -330), (-500, -310), (-250, -330), (0, -300), (250, -320), (420, -260), (560, -60), (600, 100)], [("waterway", "river"), ("name", "Aach")])


def places(m):
    m.node(0, 10, [("place", "village"), ("name", "Hohenbuch"), ("population", "1260")])
    m.node(640, -240, [("place", "hamlet"), ("name", "Weiler")])
    m.node(22, 30, [("amenity", "cafe"), ("name", "Linde")])
    m.node(46, 219, [("amenity", "school"), ("name", "Village School")])
    m.node(110, 20, [("amenity", "fountain")])
    m.node(-180, 110, [("amenity", "place_of_worship"), ("name", "St. Martin")])


class Strings:
    def __init__(self):
        self.all = [b""]

    def __call__(self, text):
        text = text.encode()
        if text not in self.all:
            self.all.append(text)
        return self.all.index(text)

    def table(self):
        return field(1, b"".join(field(1, s) for s in self.all))


def nodes_block(m):
    strings, pairs = Strings(), []
    for _, _, tags in m.nodes:
        for key, value in tags:
            pairs += [strings(key), strings(value)]
        pairs.append(0)
    lists = ((1, range(1, len(m.nodes) + 1)), (8, [n[0] for n in m.nodes]), (9, [n[1] for n in m.nodes]))
    dense = b"".join(field(at, packed(differences(list_of))) for at, list_of in lists) + field(10, packed(pairs))
    return strings.table() + field(2, field(2, dense))


def ways_block(m):
    strings, group = Strings(), b""
    for i, (refs, tags) in enumerate(m.ways):
        keys, values = [strings(key) for key, _ in tags], [strings(value) for _, value in tags]
        group += field(3, number(1, i + 1) + field(2, packed(keys)) + field(3, packed(values)) + field(8, packed(differences(refs))))
    return strings.table() + field(2, group)


def relations_block(m):
    strings, group = Strings(), b""
    for i, (members, tags) in enumerate(m.relations):
        keys, values = [strings(key) for key, _ in tags], [strings(value) for _, value in tags]
        roles, ways = [strings(role) for _, role in members], differences(way for way, _ in members)
        lists = ((2, keys), (3, values), (8, roles), (9, ways), (10, [1] * len(members)))
        group += field(4, number(1, i + 1) + b"".join(field(at, packed(list_of)) for at, list_of in lists))
    return strings.table() + field(2, group)


def header(m):
    box = [min(n[1] for n in m.nodes), max(n[1] for n in m.nodes), max(n[0] for n in m.nodes), min(n[0] for n in m.nodes)]
    bounds = b"".join(number(at + 1, zigzag(100 * n)) for at, n in enumerate(box))
    return field(1, bounds) + field(4, b"OsmSchema-V0.6") + field(4, b"DenseNodes")


def main():
    m = Map()
    streets(m)
    houses(m, Draw(7))
    land(m)
    places(m)
    with open(sys.argv[1], "wb") as out:
        out.write(frame(b"OSMHeader", header(m)) + b"".join(frame(b"OSMData", block(m)) for block in (nodes_block, ways_block, relations_block)))


main()

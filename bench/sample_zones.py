#!/usr/bin/env python3
"""Writes a zoneinfo64 bundle for the benchmarks, of zones that change.

    sample_zones.py rule    Los Angeles since 2007 with its yearly rule, Test/Plus2, and US/Pacific, an alias of the first
    sample_zones.py table   those and Test/Table, which has no rule, and a table of 240 changes by an hour, two a year

The words are laid out as docs/FORMATS.md, "The writer", has it: nothing is shared, and children stand before their parent."""
import struct
import sys

LOS_ANGELES = {
    "typeOffsets": [-28800, 0, -28800, 3600],
    "trans": [1173607200, 1194166800],
    "typeMap": b"\1\0",
    "finalRule": "US",
    "finalRaw": -28800,
    "finalYear": 2008,
}
PLUS_2 = {"typeOffsets": [7200, 0]}
# from the second Sunday of March to the first Sunday of November, at two o'clock by the wall
RULES = {"US": [2, 8, -1, 7200, 0, 10, 1, -1, 7200, 0, 3600]}
# half of them before 1970
TABLE = {
    "typeOffsets": [3600, 0, 3600, 3600],
    "trans": [15778800 * n for n in range(-120, 120)],
    "typeMap": b"\1\0" * 120,
}


def keys_of(tree, found):
    if isinstance(tree, dict):
        for key, value in tree.items():
            found.setdefault(key)
            keys_of(value, found)
    if isinstance(tree, tuple):
        for value in tree:
            keys_of(value, found)
    return found


def packed(data):
    data += b"\0" * (-len(data) % 4)
    return list(struct.unpack("<%dI" % (len(data) // 4), data))


class Writer:
    def __init__(self, tree):
        pool, self.places = b"", {}
        for key in keys_of(tree, {}):
            self.places[key] = 32 + len(pool)
            pool += key.encode() + b"\0"
        self.body = [0] * 8 + packed(pool)
        self.keys_end = len(self.body)
        self.most = 0
        root = self.item(tree)
        end = len(self.body)
        self.body[:8] = [root, 7, self.keys_end, end, end, self.most, 0, self.keys_end]

    def add(self, kind, words):
        place = len(self.body)
        self.body += words
        return kind << 28 | place

    def item(self, tree):
        if isinstance(tree, int):
            return 7 << 28 | tree & 0x0FFFFFFF
        if isinstance(tree, str):
            return self.add(0, [len(tree)] + packed(tree.encode("utf-16-le") + b"\0\0"))
        if isinstance(tree, bytes):
            return self.add(1, [len(tree)] + packed(tree))
        if isinstance(tree, list):
            return self.add(14, [len(tree)] + [n & 0xFFFFFFFF for n in tree]) if tree else 14 << 28
        if isinstance(tree, tuple):
            items = [self.item(value) for value in tree]
            return self.add(8, [len(items)] + items)
        self.most = max(self.most, len(tree))
        items = [self.item(value) for value in tree.values()]
        places = [len(tree)] + [self.places[key] for key in tree]
        return self.add(2, packed(struct.pack("<%dH" % len(places), *places)) + items)


zones = {"America/Los_Angeles": LOS_ANGELES, "Test/Plus2": PLUS_2}
if sys.argv[1] == "table":
    zones["Test/Table"] = TABLE
zones["US/Pacific"] = 0
root = {
    "Zones": tuple(zones.values()),
    "Names": tuple(zones),
    "Rules": RULES,
    "Regions": tuple("US" if name[0] in "AU" else "001" for name in zones),
}
header = [0x27DA0018, 0x14, 0x20000, 0x42736552, 2, 0]
body = Writer(root).body
sys.stdout.buffer.write(struct.pack("<%dI" % (len(header) + len(body)), *header, *body))

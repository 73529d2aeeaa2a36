#!/usr/bin/env python3
"""Writes a zoneinfo64 bundle of N zones, Test/00000 on, each of one offset, for the benchmarks.

Its words are those that `resb::write` gives for the tree of these zones (docs/FORMATS.md, "The writer"): nothing is shared,
and children stand before their parent. A test of the crate `vectors` holds the words of three zones against `write`."""
import struct
import sys

count = int(sys.argv[1])
keys = ["Zones", "typeOffsets", "Names", "Rules", "Regions"]
pool, places = b"", {}
for key in keys:
    places[key] = 32 + len(pool)
    pool += key.encode() + b"\0"
pool += b"\0" * (-len(pool) % 4)
body = [0] * 8 + list(struct.unpack("<%dI" % (len(pool) // 4), pool))
keys_end = len(body)


def units(values):
    values = values + [0] * (len(values) % 2)
    return [low | high << 16 for low, high in zip(values[::2], values[1::2])]


def text(string):
    place = len(body)
    body.extend([len(string)] + units([ord(c) for c in string] + [0]))
    return place


def table(entries):
    place = len(body)
    body.extend(units([len(entries)] + [places[key] for key, _ in entries]) + [item for _, item in entries])
    return 2 << 28 | place


def array(items):
    place = len(body)
    body.extend([len(items)] + items)
    return 8 << 28 | place


zones = []
for i in range(count):
    place = len(body)
    body.extend([2, (900 * (i % 97) - 43200) & 0xFFFFFFFF, 0])
    zones.append(table([("typeOffsets", 14 << 28 | place)]))
zones = array(zones)
names = array([text("Test/%05d" % i) for i in range(count)])
regions = array([text("001") for _ in range(count)])
body[0] = table([("Zones", zones), ("Names", names), ("Rules", 2 << 28), ("Regions", regions)])
body[1:8] = [7, keys_end, len(body), len(body), 4, 0, keys_end]
header = [0x27DA0018, 0x14, 0x20000, 0x42736552, 2, 0]
sys.stdout.buffer.write(struct.pack("<%dI" % (len(header) + len(body)), *header, *body))

#!/usr/bin/env python3
"""Writes a bundle of as many words as are read at most, made to cost its reader as much as it can, for the benchmarks.

    bench/hostile.py shared       two arrays of half a million items; each of the first stands for the second, so that
                                  the tree would have 2 to the 38th arrays
    bench/hostile.py equal-keys   a table of half a million entries, the first and the last of which have equal keys
    bench/hostile.py chains       an array of a million items, each of which stands for the same chain of six tables, one
                                  inside the other; each has one entry, with the empty key, and names another place of it

Nothing else is wrong with the first two: with the weight of the first, and with those two keys of the second. The third is a
tree, of 7.3 million resources, but it has no zones.
"""
import array
import sys

WORDS = 1048576
HEADER = [0x27DA0018, 0x14, 0x20000, 0x42736552, 2, 0]
FIRST = 8  # the body word behind the root item and the index


def index(keys_end, end):
    return [7, keys_end, end, end, 0, 0, keys_end]


def shared():
    count = (WORDS - len(HEADER) - FIRST - 2) // 2
    second = FIRST + 1 + count
    words = [count] + [8 << 28 | second] * count
    # item 8 << 28 is the empty array
    words += [count] + [8 << 28] * count
    return [8 << 28 | FIRST] + index(FIRST, FIRST + len(words)) + words


def equal_keys():
    """Beside half a million places of keys and half a million items there is no room for keys, so they lie in the words
    of the items, which nothing forbids. An item is an integer, and 70 is its highest byte. Four items in a row are, in
    bytes, the lowest of each first,

        00 01 01 70  01 01 01 70  01 01 01 70  a b c 70

    and four keys begin at the bytes 1 to 4 and end at the next 00. So each key is long, begins as many others do, and has
    an a b c that no other key of its length has. But the last key is the first one once more. The a b c come in no order,
    so that a sort of the keys has much to do."""
    groups = (WORDS - len(HEADER) - FIRST - 7) // 8
    count = 4 * groups + 1
    items_at = FIRST + 1 + count
    places = [4 * items_at + entry // 4 * 16 + 1 + entry % 4 for entry in range(count)]
    items = []
    for group in range(groups + 1):
        turn = group % groups * 7919 % groups
        name = turn // 16129 + 1 | turn // 127 % 127 + 1 << 8 | turn % 127 + 1 << 16
        items += [0x70010100, 0x70010101, 0x70010101, 0x70000000 | name]
    # the last key needs the three items that would follow, and a zero
    words = [count] + places + items + [0]
    end = FIRST + len(words)
    return [4 << 28 | FIRST] + index(end, end) + words


def chains():
    """The places of the empty key lie 256 bytes apart, so that a reader which keeps keys by the low bits of their places
    keeps none of them."""
    tables = 6
    keys = [0] * (64 * tables)
    chain_at = FIRST + len(keys)
    chain = []
    for n in range(tables):
        place = 4 * FIRST + 256 * n
        inner = 2 << 28 | chain_at + 2 * (n + 1) if n + 1 < tables else 7 << 28
        chain += [1 | place << 16, inner]
    array_at = chain_at + len(chain)
    count = WORDS - len(HEADER) - array_at - 1
    words = keys + chain + [count] + [2 << 28 | chain_at] * count
    return [8 << 28 | array_at] + index(chain_at, FIRST + len(words)) + words


body = {"shared": shared, "equal-keys": equal_keys, "chains": chains}[sys.argv[1]]()
words = array.array("I", HEADER + body)
assert words.itemsize == 4 and len(words) <= WORDS
if sys.byteorder == "big":
    words.byteswap()
words.tofile(sys.stdout.buffer)

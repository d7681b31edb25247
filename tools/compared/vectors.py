#!/usr/bin/env python3
"""Writes crates/vectors_tags/data/compared: searches with the count of codes compared, from the papers' words alone.

    python3 tools/compared/vectors.py DIR/tag_families.rs

The original has no such count. The families' codes come from its file; nothing here reads or runs this repository's code.
tools/oracle/README.md has the format of the file: frames of kinds 0, 6 and 7.
"""
import pathlib
import re
import struct
import sys

OUT = pathlib.Path(__file__).resolve().parents[2] / "crates/vectors_tags/data/compared"
ORIGINAL = pathlib.Path(sys.argv[1]).read_text()
MASK = (1 << 64) - 1
# Edge and match threshold of document 01's families, and the name of their codes in the original.
FAMILIES = [(4, 1, "T16H5"), (5, 2, "T25H7"), (5, 2, "T25H9"), (6, 3, "T36H11"), (6, 3, "T36H11")]


def codes_of(name):
    text = re.search(rf"{name}: \[u64; \d+\] = \[(.*?)\]", ORIGINAL, re.S)[1]
    return [int(code, 16) for code in re.findall(r"0x(\w+)", text)]


def turned(word, edge):
    """One turn puts at place i * edge + j the bit from place j * edge + edge - 1 - i."""
    return sum((word >> (j * edge + edge - 1 - i) & 1) << (i * edge + j) for i in range(edge) for j in range(edge))


def bad(edge, threshold, codes):
    """Refusal 6, of a table whose border is not lent."""
    return not (1 <= edge <= 8 and 1 <= threshold <= 64 and 1 <= len(codes) <= 1024) or any(code >> edge * edge for code in codes)


def full_search(word, edge, threshold, codes):
    """Document 01: refusal, id, turn and, of 02's ticket 2, the number of differing bits."""
    for turn in range(4):
        differing = [(word ^ code).bit_count() for code in codes]
        if min(differing) < threshold:
            return 0, differing.index(min(differing)), turn, min(differing)
        word = turned(word, edge)
    return 13, 0, 0, 0


def compared(word, edge, threshold, codes):
    """02's ticket 6: each code met in each turn begun counts one, the code that ends the search included."""
    count = 0
    for _ in range(4):
        near = False
        for code in codes:
            count += 1
            differing = (word ^ code).bit_count()
            if differing == 0:
                return count
            near = near or differing < threshold
        if near:
            return count
        word = turned(word, edge)
    return count


def searched(word, edge, threshold, codes):
    """The answer, and the count that stands beside it: 0 where the table is refused, which has none."""
    if bad(edge, threshold, codes):
        return (6, 0, 0, 0), 0
    return full_search(word, edge, threshold, codes), compared(word, edge, threshold, codes)


def next_number(x):
    x ^= x << 13 & MASK
    x ^= x >> 7
    return (x ^ x << 17) & MASK


class Numbers:
    def __init__(self, seed):
        self.last = seed

    def next(self):
        self.last = next_number(self.last)
        return self.last


class Table:
    """A table and the frames of the searches in it."""

    def __init__(self, edge, threshold, codes):
        self.edge, self.threshold, self.codes = edge, threshold, codes
        self.frames = [struct.pack("<BBB", 0, edge, threshold) + b"".join(struct.pack("<Q", code) for code in codes)]

    def turned(self, word, turns):
        for _ in range(turns):
            word = turned(word, self.edge)
        return word

    def search(self, *words):
        for word in words:
            answer, count = searched(word, self.edge, self.threshold, self.codes)
            self.frames.append(struct.pack("<BQHBHBB", 6, word, count, *answer))

    def damaged(self, numbers):
        """A code turned 0 to 3 times, with about one bit in sixteen flipped, also above the square."""
        position, turns = numbers.next() % len(self.codes), numbers.next() % 4
        flips = numbers.next() & numbers.next() & numbers.next() & numbers.next()
        return self.turned(self.codes[position], turns) ^ flips

    def digest(self, rule, seed, count):
        """FNV-1a over the answers to many words: 0 the numbers from 0 on, 1 each code in each turn, 2 damaged codes."""
        numbers, digest = Numbers(seed), 0xCBF29CE484222325
        for k in range(count):
            word = [lambda: k, lambda: self.turned(self.codes[k // 4], k % 4), lambda: self.damaged(numbers)][rule]()
            answer, compared = searched(word, self.edge, self.threshold, self.codes)
            for byte in struct.pack("<BHBBH", *answer, compared):
                digest = (digest ^ byte) * 0x100000001B3 & MASK
        self.frames.append(struct.pack("<BBQIQ", 7, rule, seed, count, digest))


def family(number):
    """Each code in each turn, damaged codes, and some words by themselves: clean, misread, unread, with bits above the square."""
    edge, threshold, name = FAMILIES[number]
    table = Table(edge, threshold, codes_of(name))
    numbers, last = Numbers(6_000 + number), len(table.codes) - 1
    for position in [0, 1, last // 2, last]:
        code = table.codes[position]
        for turns in range(4):
            for flips in range(threshold + 1):
                table.search(table.turned(code ^ (1 << flips) - 1, turns))
        table.search(code | 1 << edge * edge, code | 1 << 63, code | MASK ^ (1 << edge * edge) - 1)
    table.search(0, MASK, *(numbers.next() & (1 << edge * edge) - 1 for _ in range(20)))
    table.digest(1, 0, 4 * len(table.codes))
    table.digest(2, 6_100 + number, 1_500)
    table.digest(0, 0, 1 << 16 if number == 0 else 1_000)
    return table.frames


def lent():
    """Tables of our own."""
    once = Table(4, 1, [0x231B])
    once.search(0x231B, 0x7D01, 0xD8C4, 0x80BE, 0x231A)
    # A code that stands twice answers by its first position.
    twice = Table(4, 3, [0x231A, 0x231B, 0x231B, 0x7D01])
    twice.search(0x231B, 0x7D01, 0xD8C4, 0x80BE, 0x231A, 0x2319, 0)
    # A near code before the equal one does not end the search, nor does an equal code in a later turn where an earlier turn has a near one.
    near = Table(4, 3, [0x2318, 0x231A, 0x231B])
    near.search(0x231B, 0x231A, 0x2319, 0x7D01, 0x7D02)
    later = Table(4, 3, [0x7D01 ^ 3, 0x231B])
    later.search(0x7D01, 0x80BE, 0x231B)
    edges = [Table(1, 1, [0]), Table(1, 1, [1, 0]), Table(8, 64, [MASK]), Table(8, 3, [0x80, 0x80])]
    for table in edges:
        table.search(0, 1, 2, MASK, 0x80, 1 << 63, 1 << 56)
    # The longest table: an equal code at both ends, in each turn; and unread.
    numbers = Numbers(6_200)
    long = Table(8, 1, [numbers.next() for _ in range(1_024)])
    for code in [long.codes[0], long.codes[1_023]]:
        long.search(*(long.turned(code, turns) for turns in range(4)), code ^ 1)
    # Tables about as long as one or two of the blocks of 16 codes by which the search once went, with two near codes before the equal one, which is the last.
    blocks = []
    for length in [15, 16, 17, 31, 32, 33, 49]:
        codes = [numbers.next() >> 28 for _ in range(length)]
        codes[0], codes[length // 2] = codes[-1] ^ 3, codes[-1] ^ 1
        table = Table(6, 3, codes)
        table.search(*(table.turned(codes[-1], turns) for turns in range(4)), codes[-1] ^ 4, codes[-1] ^ 5, codes[-1] ^ 7)
        blocks.append(table)
    refused = [Table(0, 1, [0]), Table(9, 1, [0]), Table(4, 0, [0x231B]), Table(4, 65, [0x231B]), Table(4, 1, []), Table(4, 1, [1 << 16])]
    refused.append(Table(8, 1, long.codes + [0]))
    for table in refused:
        table.search(0x231B, 0)
    return [frame for table in [once, twice, near, later, *edges, long, *blocks, *refused] for frame in table.frames]


frames = [frame for number in range(5) for frame in family(number)] + lent()
OUT.write_bytes(b"".join(struct.pack("<H", len(frame)) + frame for frame in frames))
